"""Opens the pages of `pst explain --format html` in Chromium and checks them: check.py PROGRAM [CHECK..]

Then it opens pages with a fault and checks that the check for it fails. The status is 0 if all is as it should be.
"""
import os
import sys
import tempfile
from time import time

sys.path.insert(0, os.path.dirname(os.path.realpath(__file__)))
import checks
import documents
import times
from browser import Browser
from mutations import MUTATIONS


class Pages:
    """The pages of the examples, as the program writes them or made of a changed template or changed data."""

    def __init__(self, browser, folder, data, template, change_data=lambda data: data):
        self.browser, self.folder, self.data, self.template, self.change_data = browser, folder, data, template, change_data

    def names(self):
        return [name for name in self.data if name in documents.RUNS]

    def items(self, name):
        return documents.json.loads(self.data[name])["items"]

    def text(self, name):
        return documents.filled(self.template, self.change_data(self.data[name]))

    def open(self, name, item=None, width=1280, dark=False, media=""):
        path = os.path.join(self.folder, name + ".html")
        with open(path, "w", encoding="utf-8") as file:
            file.write(self.text(name))
        self.browser.show(width=width, dark=dark, media=media)
        self.browser.open(path, item)
        return self.browser


def data_of(program):
    """Returns the JSON of each example, cut out of the program's page, which is the template around it."""
    template, data = documents.template(), {}
    for name, runs in documents.RUNS.items():
        page = documents.of_program(program, runs)
        data[name] = documents.PAGE.DATA.search(page)[0]
        checks.want(page == documents.filled(template, data[name]), name, "is not assets/page.html with data")
    for name, system in ("failed", "stuck"), ("passed", "counter"):
        with tempfile.TemporaryDirectory() as folder:
            page = documents.of_campaign(program, system, folder)
        data[name] = documents.PAGE.DATA.search(page)[0]
        checks.want(page == documents.filled(template, data[name]), name, "is not assets/page.html with data")
    data["long"] = documents.long_reply(data["lost"])
    data["cut"] = documents.cut(data["times"])
    data["many"] = documents.many(data["store"], 2000)
    return data


def failure(check, pages):
    """Returns why a check fails, or None."""
    try:
        check(pages)
    except (AssertionError, RuntimeError, TypeError, KeyError, IndexError) as error:
        return "%s: %s" % (type(error).__name__, str(error)[:600])
    return None


def main(program, *names):
    data, failed = data_of(program), 0
    browser = Browser()
    with tempfile.TemporaryDirectory(prefix="pst-page-") as folder:
        for check in checks.CHECKS + times.CHECKS:
            if names and check.__name__ not in names:
                continue
            start = time()
            why = failure(check, Pages(browser, folder, data, documents.template()))
            failed += why is not None
            print("%-4s %-16s %.1f s %s" % ("BAD" if why else "ok", check.__name__, time() - start, why or ""), flush=True)
        for check, fault, change, change_data in MUTATIONS:
            if names and check.__name__ not in names:
                continue
            why = failure(check, Pages(browser, folder, data, change(documents.template()), change_data))
            failed += why is None
            print("%-4s %s sees %s" % ("ok" if why else "BAD", check.__name__, fault), flush=True)
    browser.close()
    print("%d failed" % failed)
    return failed > 0


if __name__ == "__main__":
    sys.exit(main(*sys.argv[1:]))
