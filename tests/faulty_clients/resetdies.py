#!/usr/bin/env python3
"""A client that ends in each reset but the first three of the test, which a file counts."""
import os, sys, tempfile

for line in sys.stdin:
    if "reset" in line:
        with open(f"{tempfile.gettempdir()}/resets", "a+") as file:
            file.write("reset\n")
            file.seek(0)
            if len(file.readlines()) > 3:
                os._exit(9)
    print(0, flush=True)
