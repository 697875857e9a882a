"""What the tables of benchmarks have in common: the program and the machine that they name, and their form."""
import os
import platform
import re
import subprocess
import sys

from measuring import EVERYWHERE

TOP = os.path.dirname(os.path.dirname(os.path.realpath(__file__)))


def program():
    """Returns the path of the program, as bench/program.sh finds it."""
    words = ["bash", "-c", 'source "$1"; echo "$program"', "bash", os.path.join(TOP, "bench", "program.sh")]
    done = subprocess.run(words, stdout=subprocess.PIPE, text=True)
    path = os.path.realpath(done.stdout.strip())
    if done.returncode != 0 or not os.access(path, os.X_OK):
        print(f"bench: there is no program {path}" if done.returncode == 0 else "bench: no program could be built", file=sys.stderr)
        sys.exit(2)
    return path


def version(path):
    """Returns the version of the program, and whether it is proved."""
    line = subprocess.run([os.path.join(TOP, "pst"), "--version"], env={**os.environ, "PST_PROGRAM": path}, stdout=subprocess.PIPE, text=True, check=True)
    text = line.stdout.strip()
    return text if "proved, " in text or "without proofs, " in text else f"{text.split(' (')[0]} (of another folder)"


def machine():
    """Returns the processors of this machine."""
    name = platform.machine()
    with open("/proc/cpuinfo", encoding="utf-8") as file:
        found = re.search(r"^model name\s*:\s*(.*)$", file.read(), re.MULTILINE)
    return f"{len(EVERYWHERE)} processors, {found[1].strip() if found else name}"


def table(head, rows):
    """Returns a table in Markdown."""
    return "".join(f"| {' | '.join(row)} |\n".replace("|  |", "| |").replace("|  |", "| |") for row in [head, ["---"] * len(head), *rows])
