#!/usr/bin/env python3
# dies within a line
import sys, os
for line in sys.stdin:
    if "inc" in line: sys.stdout.write("12"); sys.stdout.flush(); os._exit(1)
    print(0, flush=True)
