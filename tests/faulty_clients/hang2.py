#!/usr/bin/env python3
import sys, time
for line in sys.stdin:
    if "inc" in line: time.sleep(300)
    print(0, flush=True)
