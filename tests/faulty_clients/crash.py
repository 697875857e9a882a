#!/usr/bin/env python3
# dies at the second inc since the last reset
import sys, os
n = 0
for line in sys.stdin:
    if "reset" in line: n = 0; print("true", flush=True)
    elif "inc" in line:
        n += 1
        if n == 2: os._exit(3)
        print(n, flush=True)
    else: print(n, flush=True)
