#!/usr/bin/env python3
"""Runs the commands of transcripts and compares what they print: commands.py PROGRAM FILE..

A transcript has blocks that begin with a line `$ COMMAND`, which bash runs at the top of the repository with `pst` for the program,
`./pst` for the launcher, which runs this program, and $PST_ROOM for a folder of its own.
The lines after it are those of standard output; those that begin with `! ` are of standard error; a line `? N` is the exit status, 0
if there is none. A line `...` stands for any lines. Lines that begin with `#` between blocks are comments.
"""
import os, signal, subprocess, sys, tempfile

TOP = os.path.dirname(os.path.dirname(os.path.abspath(__file__)))


def blocks(path):
    """Returns for each command its number of line, its text, and the lines of standard output, of standard error and the status."""
    found = []
    with open(path, encoding="utf-8") as file:
        for number, line in enumerate(file, 1):
            line = line.rstrip("\n")
            if line.startswith("$ "):
                found.append((number, line[2:], [], [], [0]))
            elif not found or line.startswith("#"):
                continue
            elif line.startswith("! ") or line == "!":
                found[-1][3].append(line[2:])
            elif line.startswith("? "):
                found[-1][4][0] = int(line[2:])
            else:
                found[-1][2].append(line)
    return found


def trimmed(lines):
    """Returns the lines without empty ones at the end, which part a block from the next."""
    while lines and not lines[-1]:
        lines = lines[:-1]
    return lines


def fits(wanted, got):
    """Returns whether the lines are the wanted ones, where `..` or `...` stands for any lines."""
    if not wanted:
        return not got
    if wanted[0] in ("..", "..."):
        return any(fits(wanted[1:], got[at:]) for at in range(len(got) + 1))
    return bool(got) and wanted[0] == got[0] and fits(wanted[1:], got[1:])


def heed_signals():
    """Lets a command get each signal that its caller ignores, as `nohup` does, or a shell that starts something in the background."""
    for number in signal.valid_signals():
        if signal.getsignal(number) == signal.SIG_IGN:
            signal.signal(number, signal.SIG_DFL)


def main(program, *paths):
    passed = failed = 0
    with tempfile.TemporaryDirectory() as room:
        os.symlink(os.path.abspath(program), f"{room}/pst")
        os.mkdir(f"{room}/files")
        plain = {name: value for name, value in os.environ.items() if name not in ("COLUMNS", "NO_COLOR")}
        env = {**plain, "PATH": f"{room}:{os.environ['PATH']}", "PST_ROOM": f"{room}/files", "PST_PROGRAM": f"{room}/pst"}
        for path in paths:
            for number, command, out, errors, (status,) in blocks(path):
                ran = subprocess.run(["bash", "-c", command], cwd=TOP, env=env, stdin=subprocess.DEVNULL, capture_output=True, timeout=120,
                                     preexec_fn=heed_signals)
                got = [text.decode(errors="replace").splitlines() for text in (ran.stdout, ran.stderr)]
                if fits(trimmed(out), trimmed(got[0])) and fits(trimmed(errors), trimmed(got[1])) and ran.returncode == status:
                    passed += 1
                    continue
                failed += 1
                print(f"{path}:{number}: $ {command}")
                for line in got[0]:
                    print(f"  {line}")
                for line in got[1]:
                    print(f"  ! {line}")
                print(f"  ? {ran.returncode}")
    print(f"{passed} passed, {failed} failed")
    return 1 if failed else 0


if __name__ == "__main__":
    sys.exit(main(*sys.argv[1:]))
