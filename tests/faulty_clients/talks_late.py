#!/usr/bin/env python3
# prints a line too many for each call, but none for a reset
import sys
for line in sys.stdin:
    if "reset" not in line: print("debug: got", line.strip())
    print(0, flush=True)
