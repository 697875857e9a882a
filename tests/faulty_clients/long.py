#!/usr/bin/env python3
import sys
for line in sys.stdin:
    print("true" if "reset" in line else "1" * 3000000, flush=True)
