"""The pages that the checks open: the program's own for files of runs, and those with a changed template or changed data."""
import importlib.machinery
import importlib.util
import json
import os
import re
import subprocess

TOP = os.path.dirname(os.path.dirname(os.path.dirname(os.path.realpath(__file__))))
HERE = os.path.join(TOP, "tests/page")
EXPLAINED = "crates/pst_rows/data/explained/"
RUNS = {
    "bank": EXPLAINED + "bank.runs", "cache": EXPLAINED + "cache.runs", "counter": EXPLAINED + "counter.runs", "deep": EXPLAINED + "deep.runs",
    "faults": EXPLAINED + "faults.runs", "four": "tests/page/four.runs", "hostile": "tests/page/hostile.runs", "init": EXPLAINED + "init.runs",
    "any": "--order none tests/page/times.runs", "lost": "examples/lost.runs", "queue": EXPLAINED + "queue.runs", "reads": "examples/reads.runs", "registry": "examples/registry.runs",
    "silent": "examples/silent.runs", "unknown": EXPLAINED + "unknown.runs", "store": "examples/store.runs", "times": "tests/page/times.runs", "wide": EXPLAINED + "wide.runs",
}


def tool():
    """Returns tools/page as a module."""
    loader = importlib.machinery.SourceFileLoader("page", os.path.join(TOP, "tools/page"))
    module = importlib.util.module_from_spec(importlib.util.spec_from_loader("page", loader))
    loader.exec_module(module)
    return module


PAGE = tool()


def template():
    """Returns the text of assets/page.html."""
    with open(PAGE.PAGE, encoding="utf-8") as file:
        return file.read()


def filled(page, data):
    """Returns a page with this JSON as its data, and the hashes of its style and its script in its policy."""
    return PAGE.DATA.sub(lambda _: data, PAGE.with_hashes(page), count=1)


def without_policy(page):
    """Returns a page to which the browser allows everything."""
    return re.sub(r'<meta http-equiv="Content-Security-Policy"[^>]*>\n', "", page)


def of_program(program, runs):
    """Returns the page that the program writes for a file of runs, after any options."""
    ran = subprocess.run([program, "explain", "--format", "html", *runs.split()], cwd=TOP, capture_output=True, timeout=60)
    if ran.returncode not in (0, 1):
        raise RuntimeError("pst explain --format html %s ends with %d: %s" % (runs, ran.returncode, ran.stderr.decode()))
    return ran.stdout.decode()


def of_campaign(program, system, folder):
    """Returns the page that the program writes for a campaign of six trials on a system."""
    path = os.path.join(folder, system + ".page.html")
    words = [program, "campaign", system, "examples/counter.model", "--trials", "6", "--quiet", "--html", path]
    ran = subprocess.run(words, cwd=TOP, capture_output=True, timeout=60)
    if ran.returncode not in (0, 1):
        raise RuntimeError("%s ends with %d: %s" % (" ".join(words), ran.returncode, ran.stderr.decode()))
    with open(path, encoding="utf-8") as file:
        return file.read()


def long_reply(document):
    """Returns a document in which a reply and a state have 65,536 letters."""
    text = json.dumps("</script>" + "x" * 65527)
    changed = json.loads(document)
    item = changed["items"][0]
    item["calls"][0]["reply"] = {"text": text}
    item["walk"]["steps"][-1]["state"] = text
    item.pop("graph", None)
    return escaped(changed)


def cut(document):
    """Returns a document whose first item lacks what a search of too many steps leaves out."""
    changed = json.loads(document)
    item = changed["items"][0]
    item["left_out"] = ["core", "walk", "in_time"]
    for member in item["left_out"]:
        item.pop(member)
    return escaped(changed)


def with_late_moves(document):
    """Returns a document in which each graph has another move of its last call, from the first state."""
    changed = json.loads(document)
    for edges in (item["graph"]["edges"] for item in changed["items"] if "graph" in item):
        edges.append({**edges[-1], "from": 0})
    return escaped(changed)


def many(document, count):
    """Returns a document with the items repeated, so that there are `count`."""
    changed = json.loads(document)
    items = changed["items"]
    changed["items"] = [{**items[i % len(items)], "item": i + 1} for i in range(count)]
    return escaped(changed)


def escaped(document):
    """Returns JSON that may be part of a page."""
    return re.sub("[<>&]", lambda found: "\\u%04x" % ord(found[0]), json.dumps(document))
