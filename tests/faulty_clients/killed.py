#!/usr/bin/env python3
"""A client that is killed in its third call."""
import os, signal, sys

asked = 0
for line in sys.stdin:
    asked += not line.startswith('["reset"]')
    if asked == 3:
        os.kill(os.getpid(), signal.SIGKILL)
    print(0, flush=True)
