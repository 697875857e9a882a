#!/usr/bin/env python3
# counts from 5 and has no reset
import sys
number = 5
for line in sys.stdin:
    number += {"inc": 1, "dec": -1}.get(line.split('"')[1], 0)
    print(number, flush=True)
