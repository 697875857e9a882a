"""Times of commands, and medians of rounds in which the measures take turns."""
import contextlib
import os
import shutil
import signal
import statistics
import subprocess
import tempfile
import time
from dataclasses import dataclass, field

EVERYWHERE = os.sched_getaffinity(0)
ONE = {min(EVERYWHERE)}


class Failed(Exception):
    """A command that did not end as it has to."""


@contextlib.contextmanager
def on(processors):
    """Has this process, and those that it starts, run on these processors."""
    os.sched_setaffinity(0, processors)
    try:
        yield
    finally:
        os.sched_setaffinity(0, EVERYWHERE)


def ended(process):
    """Waits for a process and returns its status; if this one is ended meanwhile, it ends it."""
    try:
        return os.waitpid(process, 0)[1]
    except BaseException:
        os.kill(process, signal.SIGTERM)
        raise


def seconds(*words, runs=1, statuses=(0,), source=os.devnull, into=os.devnull, processors=EVERYWHERE):
    """Returns the mean seconds of `runs` runs of a command, which reads `source` and writes to `into`."""
    with open(source, "rb") as read, open(into, "wb") as write, tempfile.TemporaryFile() as errors:
        actions = [(os.POSIX_SPAWN_DUP2, file.fileno(), number) for number, file in enumerate((read, write, errors))]
        taken = 0
        for _ in range(runs):
            os.lseek(read.fileno(), 0, os.SEEK_SET)
            with on(processors):
                begin = time.perf_counter()
                status = ended(os.posix_spawnp(words[0], words, os.environ, file_actions=actions))
                taken += time.perf_counter() - begin
            if os.waitstatus_to_exitcode(status) not in statuses:
                errors.seek(0)
                raise Failed(f"{' '.join(words)}: status {os.waitstatus_to_exitcode(status)}: {errors.read(2000).decode(errors='replace')}")
        return taken / runs


def printed(*words, statuses=(0,)):
    """Returns what a command prints."""
    done = subprocess.run(words, stdout=subprocess.PIPE, stderr=subprocess.PIPE, text=True)
    if done.returncode not in statuses:
        raise Failed(f"{' '.join(words)}: status {done.returncode}: {done.stderr[:2000]}")
    return done.stdout


@contextlib.contextmanager
def busy_loops():
    """Keeps four processors busy."""
    loops = [subprocess.Popen(["bash", "-c", "while :; do :; done"]) for _ in range(4)]
    try:
        yield
    finally:
        for loop in loops:
            loop.kill()
            loop.wait()


@dataclass
class Aim:
    """What a ratio is to be."""

    word: str  # "at most" or "at least"
    bound: float

    def is_met(self, ratio):
        return ratio <= self.bound if self.word == "at most" else ratio >= self.bound

    def __str__(self):
        return f"{self.word} {self.bound:g}"


@dataclass
class Row:
    """A row of the table: the names of its two measures in the group, the second one with its words."""

    what: str
    unit: str
    pst: str
    beside: str = ""
    words: str = ""
    aim: Aim = None


@dataclass
class Group:
    """Measures that take turns, and the rows that show them. `needs` has the tool that a measure needs."""

    measures: dict
    rows: list
    needs: dict = field(default_factory=dict)
    around: object = contextlib.nullcontext


def figure(value, unit):
    """Returns a value with three digits or more; a count has no unit and no fraction."""
    if not unit:
        return f"{value:g}"
    digits = 0 if value >= 100 else 1 if value >= 10 else 2
    return f"{value:,.{digits}f} {unit}"


class Tools:
    """Which tools are there, and the packages of those that are not."""

    PACKAGES = {"PropEr": "erlang-base erlang-proper erlang-proper-dev"}

    def __init__(self, probes):
        self.probes, self.known = probes, {}

    def has(self, tool):
        if tool not in self.known:
            probe = self.probes.get(tool, lambda: shutil.which(tool) is not None)
            self.known[tool] = probe()
        return self.known[tool]

    def package(self, tool):
        return self.PACKAGES.get(tool, tool)


def wanted(group, rows):
    """Returns the names of the measures of these rows, in the order in which they take turns."""
    names = {name for row in rows for name in (row.pst, row.beside)}
    return [name for name in group.measures if name in names]


def measured(group, rows, rounds, tools):
    """Returns for each measure of these rows its value in each round; none if its tool is missing."""
    names = [name for name in wanted(group, rows) if name not in group.needs or tools.has(group.needs[name])]
    values = {name: [] for name in names}
    with group.around():
        for _ in range(rounds):
            for name in names:
                values[name].append(group.measures[name]())
    return values


def cells(group, row, values, tools):
    """Returns the cells of a row, and whether its ratio misses the aim."""
    own = figure(statistics.median(values[row.pst]), row.unit)
    aim = str(row.aim or "")
    if not row.beside:
        return [row.what, own, "", "", aim], False
    if row.beside not in values:
        tool = group.needs[row.beside]
        return [row.what, own, f"{row.words}: not installed (`{tools.package(tool)}`)", "", aim], False
    other = f"{row.words}: {figure(statistics.median(values[row.beside]), row.unit)}"
    ratios = [first / second for first, second in zip(values[row.pst], values[row.beside]) if second]
    if not ratios:
        return [row.what, own, other, "", aim], False
    ratio = statistics.median(ratios)
    is_missed = row.aim is not None and not row.aim.is_met(ratio)
    return [row.what, own, other, f"{ratio:.3g}" if ratio < 100 else f"{ratio:,.0f}", aim], is_missed
