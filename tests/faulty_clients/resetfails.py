#!/usr/bin/env python3
import sys, os
n = 0
for line in sys.stdin:
    n += "reset" in line
    print("failed cannot reset" if n == 3 else 0, flush=True)
