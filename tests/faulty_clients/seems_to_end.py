#!/usr/bin/env python3
# Seems to end at a call, ends in truth at `revive`, and leaves a process that answers the reset after it.
import os, sys, time
for line in sys.stdin:
    if "revive" in line:
        if os.fork() == 0:
            time.sleep(0.5)
            print(0, flush=True)
        os._exit(1)
    print(0 if "reset" in line else "\x18x", flush=True)
