#!/usr/bin/env python3
# answers, and then ends while idle, at each 7th line
import sys, os
for n, line in enumerate(sys.stdin):
    print(0, flush=True)
    if n == 7: os._exit(5)
