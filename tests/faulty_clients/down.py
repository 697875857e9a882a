#!/usr/bin/env python3
import sys, time
for number, line in enumerate(sys.stdin):
    if number > 0: time.sleep(0.1)
    print("failed no server" if number > 0 else 0, flush=True)
