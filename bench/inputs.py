"""The files that `bench/beside` measures, each made when it is first wanted."""
import os
import re
import subprocess
from functools import cached_property

COUNTER = """(model counter (state int) (init 0)
  (command (list call (call inc) (call get)))
  (op inc () int (pre true) (next (+ s 1)) (post (= r (+ s 1))))
  (op get () int (pre true) (next s) (post (= r s))))
"""
INC = """(model inc (state int) (init 0) (command (list call (call inc)))
  (op inc () int (pre true) (next (+ s 1)) (post (= r (+ s 1)))))
"""
SILENT = """(model silent (state int) (init 0) (command (list call (call inc) (call get)))
  (op inc () int (pre true) (next (+ s 1)) (post true))
  (op get () int (pre true) (next s) (post (= r s))))
"""
EXPLAINED = "(run (prefix) (left (inc)) (right (inc)) (replies () (1) (2)))\n"
LOST = "(run (prefix) (left (inc)) (right (inc)) (replies () (1) (1)))\n"
TREE = "(run (prefix (inc)) (left (inc) (get)) (right (inc) (get)) (replies (1) (2 3) (3 3)))\n"
EMPTY = "(case (prefix) (left) (right))\n"
MIB = 1 << 20

RUNS = 1_000_000  # in a stream
SEARCHES = 200  # in `searches`
DRIVEN = 4_000  # in `driven`
TIMED = 3_000  # in `timed`, which a file of 1 MiB has room for


def initial(expression, head="model"):
    """Returns a model whose initial state is this expression, and a case that evaluates nothing else."""
    return f"({head} peer (state int) (init {expression}) (command (list call)))\n{EMPTY}"


def reads(branches, each):
    """Returns a run of branches that only read, the last of which reads what no state has."""
    calls = f" ({' '.join(['(get)'] * each)})" * branches
    replies = " ".join(["0"] * each)
    last = " ".join(["0"] * (each - 1) + ["1"])
    return f"(run (prefix) (branches{calls}) (replies (){f' ({replies})' * (branches - 1)} ({last})))\n"


def puts(first, last):
    return " ".join(f"(put {number})" for number in range(first, last + 1))


def until(size, model, items):
    """Returns a model and the items in turn, in at most this number of bytes."""
    return model + items * ((size - len(model)) // len(items))


class Inputs:
    """The paths of the files, in a folder that goes with the script."""

    def __init__(self, top, room, program):
        self.top, self.room, self.program = top, room, program

    def example(self, name):
        return os.path.join(self.top, "examples", name)

    def text(self, name):
        with open(self.example(name), encoding="utf-8") as file:
            return file.read()

    def made(self, name, *texts):
        path = os.path.join(self.room, name)
        with open(path, "w", encoding="utf-8") as file:
            file.writelines(texts)
        return path

    def printed(self, *words):
        """Returns what the program prints, whatever its verdicts are."""
        done = subprocess.run([self.program, *words], stdout=subprocess.PIPE, text=True)
        assert done.returncode in (0, 1), words
        return done.stdout

    @cached_property
    def counter(self):
        return self.example("counter.model")

    @cached_property
    def queue(self):
        return self.example("queue.model")

    @cached_property
    def registry(self):
        return self.example("registry.model")

    @cached_property
    def inc(self):
        return self.made("inc", INC)

    @cached_property
    def silent(self):
        return self.made("silent", SILENT)

    @cached_property
    def start(self):
        return self.made("start", COUNTER)

    @cached_property
    def turns(self):
        return self.made("turns", initial("(len (for ((in x (range 0 1000)) (in y (range 0 999)) (when (< x 0))) y))"))

    @cached_property
    def folds(self):
        inner = "(fold x (range 0 60000) sum 0 (rem (+ (* sum 3) x) 1000003))"
        return self.made("folds", initial(f"(fold i (range 0 16) total 0 (+ total {inner}))"))

    @cached_property
    def keys(self):
        filled = "(fold x (range 0 4096) m (map int int) (put m x x))"
        return self.made("keys", initial(f"(let m {filled} (fold x (range 0 4096) sum 0 (+ sum (get m x))))", "model2"))

    @cached_property
    def searches(self):
        return self.made("searches", COUNTER, reads(4, 4) * SEARCHES)

    @cached_property
    def eight(self):
        return self.made("eight", COUNTER, reads(2, 8))

    @cached_property
    def four(self):
        return self.made("four", COUNTER, reads(4, 4))

    @cached_property
    def many(self):
        return self.made("many", COUNTER, (EXPLAINED + LOST) * 1500)

    @cached_property
    def spaces(self):
        return self.made("spaces", COUNTER.ljust(MIB))

    @cached_property
    def texts(self):
        functions = "".join(f'(fun f{number} () text "{"a" * 65000}")\n' for number in range(16))
        return self.made("texts", "(model texts (state int) (init 0) (command (list call))\n", functions, ")\n")

    @cached_property
    def cheap(self):
        return self.made("cheap", until(MIB, self.text("counter.model"), EXPLAINED))

    @cached_property
    def half(self):
        return self.made("half", until(MIB, self.text("counter.model"), EXPLAINED + LOST))

    @cached_property
    def costly(self):
        seven = "true " * 7
        run = f"(run (prefix) (left {puts(1, 8)}) (right {puts(9, 16)}) (replies () ({seven}true) ({seven}false)))\n"
        return self.made("costly", self.text("queue.model"), run * 40)

    @cached_property
    def two(self):
        return self.made("two", self.text("queue.model"), f"(case (prefix) (left {puts(1, 8)}) (right {puts(9, 16)}))\n")

    @cached_property
    def three(self):
        return self.made("three", self.text("queue.model"), f"(case (prefix) (branches ({puts(1, 5)}) ({puts(6, 10)}) ({puts(11, 15)})))\n")

    def driven_runs(self, *words):
        """Returns the lines of runs of generated cases on the sample system `counter`."""
        cases = self.made("cases", self.text("counter.model"), self.printed("generate", self.counter, "--trials", str(DRIVEN)))
        lines = self.printed("run", "--quiet", *words, "counter", cases).splitlines(keepends=True)
        runs = [line for line in lines if line.startswith("(run")]
        assert len(runs) == DRIVEN, len(runs)
        return runs

    @cached_property
    def driven(self):
        return self.made("driven", self.text("counter.model"), *self.driven_runs())

    @cached_property
    def timed(self):
        return self.made("timed", self.text("counter.model"), *self.driven_runs("--order", "time")[:TIMED])

    @cached_property
    def untimed(self):
        """The runs of `timed` without their times."""
        with open(self.timed, encoding="utf-8") as file:
            return self.made("untimed", re.sub(r" \(times .*\)\)$", ")", file.read(), flags=re.MULTILINE))

    @cached_property
    def trees(self):
        return self.made("trees", TREE * RUNS)

    @cached_property
    def json(self):
        return self.made("json", self.printed("convert", self.counter, self.made("tree", TREE)) * RUNS)
