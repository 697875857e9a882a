#!/usr/bin/env python3
"""The results of campaigns as JUnit XML, read by a parser of XML: junit.py PROGRAM."""
import os, subprocess, sys, tempfile
import xml.etree.ElementTree as ElementTree

TOP = os.path.dirname(os.path.dirname(os.path.abspath(__file__)))
COUNTER = f"{TOP}/examples/counter.model"
# A text of the model has characters that XML escapes.
ESCAPED = """(model m (state int) (init 0) (command (list call (call ab "x&<y>]]>"))) (op ab ((t text)) int (pre true) (next (+ s 1))
  (post (and (< r 0) (= t "x&<y>]]>")))))"""
EMPTY = "(model c (state int) (init 0) (command (list call)) (op inc () int (pre true) (next s) (post true)))"
FAULTY = "(model c (state int) (init (div 1 0)) (command (list call (call inc))) (op inc () int (pre true) (next s) (post true)))"
passed = failed = 0


def check(name, is_right, *shown):
    """Counts a check."""
    global passed, failed
    if is_right:
        passed += 1
    else:
        failed += 1
        print(f"junit: {name}:", *shown)


def campaign(program, room, *arguments, model=None):
    """Runs a campaign, and returns its status, the root of its results, and their text."""
    path = f"{room}/results.xml"
    if os.path.exists(path):
        os.remove(path)
    ran = subprocess.run([program, "campaign", "-q", *arguments, "--junit", path], input=model, stdout=subprocess.DEVNULL, stderr=subprocess.DEVNULL, text=True)
    with open(path, encoding="ascii") as file:
        text = file.read()
    return ran.returncode, ElementTree.fromstring(text), text


def numbers(root):
    """The counts that the suite gives, and those of its test cases."""
    cases = root.findall("testcase")
    counted = [len(cases), sum(case.find("failure") is not None for case in cases), sum(case.find("error") is not None for case in cases)]
    return [int(root.get(name)) for name in ("tests", "failures", "errors")], counted


def main(program):
    with tempfile.TemporaryDirectory() as room:
        status, root, text = campaign(program, room, "counter", COUNTER, "--trials", "5")
        check("all passed", status == 0 and numbers(root) == ([1, 0, 0], [1, 0, 0]), status, text)
        case = root.find("testcase")
        check("its case", root.tag == "testsuite" and root.get("name") == "counter" == case.get("classname") and case.get("name") == "campaign with seed 0 and 5 trials", text)

        status, root, text = campaign(program, room, "stuck", COUNTER, "--trials", "20")
        wanted, counted = numbers(root)
        check("failures", status == 1 and wanted == counted and wanted[0] == wanted[1] + 1 > 1 and wanted[2] == 0, status, text)
        cases = [case for case in root.findall("testcase") if case.find("failure") is not None]
        check("names are cases", all(case.get("name").startswith("(case (prefix") and case.get("name").endswith(")") for case in cases), text)
        check("names differ", len({case.get("name") for case in cases}) == len(cases), text)
        failure = cases[0].find("failure")
        check("message", failure.get("message") == "unexplained far 0", text)
        check("text", failure.text.startswith("Seed 0, trial ") and "\n(run (prefix" in failure.text and "This answer cannot be right" in failure.text, text)

        status, root, text = campaign(program, room, "stuck", "-", "--trials", "5", model=ESCAPED)
        names = [case.get("name") for case in root.findall("testcase")]
        check("characters are escaped", status == 1 and any('(ab "x&<y>]]>")' in name for name in names), status, text)

        for model, status_of, message in ((EMPTY, 0, "no trial made a call"), (FAULTY, 1, "trial 0 has no case")):
            status, root, text = campaign(program, room, "counter", "-", "--trials", "5", model=model)
            error = root.find("testcase").find("error")
            check(message, status == status_of and numbers(root) == ([1, 0, 1], [1, 0, 1]) and error.get("message") == message, status, text)

        ran = subprocess.run([program, "campaign", "counter", COUNTER, "--junit", f"{room}/none/results.xml"], capture_output=True, text=True)
        check("no such folder", ran.returncode == 3 and not ran.stdout and ran.stderr.startswith("pst: cannot write "), ran)
        ran = subprocess.run([program, "campaign", "counter", COUNTER, "--junit", "-"], capture_output=True, text=True)
        check("standard output", ran.returncode == 2 and not ran.stdout and "--junit takes the name of a file" in ran.stderr, ran)
        ran = subprocess.run([program, "campaign", "counter", COUNTER, "--trials", "3"], capture_output=True)
        beside = subprocess.run([program, "campaign", "counter", COUNTER, "--trials", "3", "--junit", f"{room}/results.xml"], capture_output=True)
        check("the report stays", ran.stdout == beside.stdout and ran.returncode == beside.returncode == 0, ran, beside)
    print(f"{passed} checks passed, {failed} failed")
    return failed > 0


sys.exit(main(*sys.argv[1:]))
