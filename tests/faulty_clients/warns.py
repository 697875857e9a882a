#!/usr/bin/env python3
# prints 50 lines on standard error that no other process prints, and raises an exception in each call
import os, sys
for n in range(50): print(f"process {os.getpid()}: warning {n}", file=sys.stderr)
for line in sys.stdin:
    if "reset" not in line: raise ValueError("no number")
    print(0, flush=True)
