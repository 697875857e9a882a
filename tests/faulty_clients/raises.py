#!/usr/bin/env python3
# raises an exception in each call
import sys
for line in sys.stdin:
    if "reset" not in line: raise ValueError("no number")
    print(0, flush=True)
