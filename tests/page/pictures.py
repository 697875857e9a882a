"""Takes the pictures of docs/: pictures.py PROGRAM"""
import os
import sys
import tempfile

from browser import Browser
from documents import RUNS, TOP, of_program

# The file, the example, its item, the width, and whether the page is dark.
PICTURES = [("page.png", "cache", 3, 1000, False), ("page-dark.png", "cache", 3, 1000, True)]


def main(program):
    browser = Browser()
    with tempfile.TemporaryDirectory(prefix="pst-page-") as folder:
        for file, name, item, width, dark in PICTURES:
            path = os.path.join(folder, name + ".html")
            with open(path, "w", encoding="utf-8") as out:
                out.write(of_program(program, RUNS[name]))
            browser.show(width=width, dark=dark)
            browser.open(path, item)
            browser.picture(os.path.join(TOP, "docs", file), full=True, most=1000)
    browser.close()


if __name__ == "__main__":
    main(*sys.argv[1:])
