#!/usr/bin/env python3
"""Tests `pst judge --stream` on pipes: streams.py PROGRAM MODEL"""
import random, subprocess, sys, threading

program, model = sys.argv[1:]
LINE = b"(run (prefix) (left (inc)) (right (inc)) (replies () (1) (2)))\n"


def start(*words, **streams):
    return subprocess.Popen([program, "judge", "-q", "--stream", *words, model], **{"stdin": subprocess.PIPE, "stdout": subprocess.PIPE, "bufsize": 0, **streams})


def line_of(pst):
    """Reads one line, and no byte more."""
    got = b""
    while not got.endswith(b"\n"):
        byte = pst.stdout.read(1)
        assert byte, got
        got += byte
    return got


def memory(pst):
    """Returns the greatest memory so far in KiB. What is not read yet fits the pipe."""
    return int(next(line for line in open(f"/proc/{pst.pid}/status") if line.startswith("VmHWM:")).split()[1])


def waits():
    pst = start()
    for number in range(1, 2001):
        pst.stdin.write(LINE)
        assert line_of(pst) == b"%d explained LR\n" % number
    print("a producer that waits for each verdict has each")
    for cut in (1, 20, len(LINE) - 1):
        number += 1
        pst.stdin.write(LINE[:cut])
        pst.stdin.write(LINE[cut:])
        assert line_of(pst) == b"%d explained LR\n" % number
    print("a line that comes in two parts is one line")
    pst.stdin.close()
    assert pst.stdout.read() == b"" and pst.wait(10) == 0


def goes_away():
    pst = start()
    pst.stdin.write(LINE)
    line_of(pst)
    pst.stdout.close()
    try:
        for _ in range(100000):
            pst.stdin.write(LINE)
    except BrokenPipeError:
        pass
    assert pst.wait(10) == 3
    print("a reader that goes away ends the program with status 3")


def items(count):
    """Runs of two branches, most of them explained, and here and there a line that is refused."""
    chosen = random.Random(7)
    for _ in range(count):
        if chosen.random() < 0.001:
            yield b"(case (prefix) (left (nope)) (right))\n"
            continue
        number, replies = 0, ([], [])
        for _ in range(4):
            number += 1
            replies[chosen.random() < 0.5].append(number)
        if chosen.random() < 0.01:
            replies[0].append(0)
        spelled = [" ".join(["(inc)"] * len(part)) for part in replies] + [" ".join(map(str, part)) for part in replies]
        yield ("(run (prefix) (left %s) (right %s) (replies () (%s) (%s)))\n" % tuple(spelled)).encode()


def numbered(line, number):
    words = line.split(b" ")
    words[2 if words[0] == b"refused" else 0] = b"%d" % number
    return b" ".join(words)


def many():
    lines = list(items(40000))
    wanted, worst, head = [], 0, open(model, "rb").read() + b"\n"
    for at in range(0, len(lines), 8000):
        part = subprocess.run([program, "judge", "-q", "--keep-going"], input=head + b"".join(lines[at : at + 8000]), capture_output=True)
        worst = max(worst, part.returncode)
        wanted += part.stdout.splitlines(True)
    wanted = [numbered(line, number) for number, line in enumerate(wanted, 1)]
    pst = start(stdout=subprocess.PIPE)
    got = []
    reader = threading.Thread(target=lambda: got.append(pst.stdout.read()))
    reader.start()
    for at in range(0, len(lines), 100):
        pst.stdin.write(b"".join(lines[at : at + 100]))
    kilobytes = memory(pst)
    pst.stdin.close()
    reader.join()
    assert got[0] == b"".join(wanted) and pst.wait(10) == worst == 2
    print("40000 lines have the lines and the status of --keep-going")
    print("little memory" if kilobytes < 32 * 1024 else f"much memory: {kilobytes} KiB")


def shortest():
    pst = start(stdout=subprocess.DEVNULL)
    for _ in range(256):
        pst.stdin.write(b"\n" * 1024)
    kilobytes = memory(pst)
    pst.stdin.close()
    assert pst.wait(60) == 2
    print("little memory for the shortest lines" if kilobytes < 32 * 1024 else f"much memory: {kilobytes} KiB")


waits()
goes_away()
many()
shortest()
