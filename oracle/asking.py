"""Asks the program, and compares its answer with that of this implementation."""
import subprocess
import sys


def output_of(program, *words):
    ran = subprocess.run([program, *words, "--quiet"], stdout=subprocess.PIPE, timeout=120, check=False)
    return ran.stdout.decode()


def compare(source, wanted, found):
    if wanted != found:
        print(f"{source}\n\nthis implementation:\n{wanted}\nthe program:\n{found}")
        sys.exit(1)
