#!/usr/bin/env python3
import sys
for line in sys.stdin: print("debug: got", line.strip()); print(0, flush=True)
