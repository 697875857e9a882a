#!/usr/bin/env python3
"""A right counter in a file whose clients end in the first `inc` of a run, before or after it took effect. A file has the lines that they read."""
import fcntl, json, os, random, sys, tempfile

name = f"{tempfile.gettempdir()}/dies-{os.environ['PST_WORKER']}"
with open(f"{name}.lines", "a") as lines, open(name, "a+") as file:
    for line in sys.stdin:
        print(f"{os.environ['PST_BRANCH']} {line}", end="", file=lines, flush=True)
        operation = json.loads(line)[0]
        fcntl.flock(file, fcntl.LOCK_EX)
        file.seek(0)
        count, deaths = map(int, (file.read() or "0 0").split())
        is_last = operation == "inc" and deaths == 0
        if operation == "reset":
            count = deaths = 0
        elif operation == "inc" and (not is_last or random.random() < 0.5):
            count += 1
        file.truncate(0)
        file.write(f"{count} {deaths + is_last}")
        file.flush()
        fcntl.flock(file, fcntl.LOCK_UN)
        if is_last:
            os._exit(9)
        print(count, flush=True)
