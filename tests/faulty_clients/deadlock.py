#!/usr/bin/env python3
"""A client whose `inc` takes a lock that it never gives back. A reset waits for this lock too."""
import os, signal, sys, tempfile, time

lock = f"{tempfile.gettempdir()}/taken"
for line in sys.stdin:
    signal.alarm(1)
    while os.path.exists(lock):
        time.sleep(0.01)
    if "inc" in line:
        open(lock, "w").close()
    print(0, flush=True)
    signal.alarm(0)
