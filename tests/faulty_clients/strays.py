#!/usr/bin/env python3
# a right counter, which all branches keep in a file, by a client that prints lines too many, as its argument says:
#   second   answers its third call twice, in one write
#   later    answers its third call twice, the second time a little later
#   slow     answers its third call twice, the second time a little later, and takes 20 ms for each call
#   before   prints a number before each answer, in a write of its own
#   reset    prints a line after the answer to each reset but the first
#   start    prints a line when it starts
import fcntl, os, sys, time

kind = sys.argv[1]
calls = resets = 0
file = open(os.path.join(os.environ["TMPDIR"], "strays" + os.environ["PST_WORKER"]), "a+")


def answer(name):
    fcntl.flock(file, fcntl.LOCK_EX)
    file.seek(0)
    number = int(file.read() or 0)
    number = {"reset": 0, "inc": number + 1, "get": number}[name]
    file.truncate(0)
    file.write(str(number))
    file.flush()
    fcntl.flock(file, fcntl.LOCK_UN)
    return number


if kind == "start":
    print("started", flush=True)
for line in sys.stdin:
    name = line.split('"')[1]
    calls += name != "reset"
    resets += name == "reset"
    is_third = calls == 3 and name != "reset"
    if kind == "before" and name != "reset":
        print(7, flush=True)
    if kind == "slow" and name != "reset":
        time.sleep(0.02)
    text = f"{answer(name)}\n" if name != "reset" else f"reset to {answer(name)}\n"
    if is_third and kind == "second":
        text += text
    print(text, end="", flush=True)
    if is_third and kind in ("later", "slow"):
        time.sleep(0.0005)
        print(text, end="", flush=True)
    if name == "reset" and resets > 1 and kind == "reset":
        print("done", flush=True)
