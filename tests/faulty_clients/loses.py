#!/usr/bin/env python3
"""A counter in a file that loses the answers of some calls, before or after they took effect. With --racy `inc` looks, waits and then stores."""
import fcntl, json, os, random, sys, tempfile, time

name = f"{tempfile.gettempdir()}/loses-{os.environ['PST_WORKER']}"
is_racy = "--racy" in sys.argv


def count():
    with open(name) as file:
        return int(file.read() or 0)


def store(number):
    with open(name, "r+") as file:
        file.write(f"{number:9}")


def call(operation):
    if operation == "reset":
        store(0)
        return 0
    number = count()
    if operation == "inc":
        if is_racy:
            time.sleep(0.002)
        number += 1
        store(number)
    return number


open(name, "a").close()
with open(f"{name}.lock", "w") as lock:
    for line in sys.stdin:
        operation = json.loads(line)[0]
        chance = 1 if operation == "reset" else random.random()
        answer = "unknown timeout"
        if chance > 0.1:
            if not is_racy:
                fcntl.flock(lock, fcntl.LOCK_EX)
            answer = call(operation)
            fcntl.flock(lock, fcntl.LOCK_UN)
        print("unknown connection reset" if chance < 0.2 else answer, flush=True)
