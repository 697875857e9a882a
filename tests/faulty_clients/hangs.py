#!/usr/bin/env python3
import sys, signal, time
for line in sys.stdin:
    signal.alarm(1)
    if "inc" in line: time.sleep(100)
    print(0, flush=True)
