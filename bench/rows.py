"""What `bench/beside` measures: the groups of rows, in the order of the table."""
import os
import re
import subprocess
from functools import cached_property

from inputs import DRIVEN, RUNS, SEARCHES, TIMED
from measuring import EVERYWHERE, ONE, Aim, Failed, Group, Row, busy_loops, printed, seconds

STEPS = 1_700  # of one search in `searches`
TRIALS = 2_000  # of a campaign on a quiet machine
BUSY_TRIALS = 800  # beside busy loops
QUEUE_TRIALS = 100
RACES = 300
JUDGED = (0, 1)


def of(measure, *words, **options):
    """Returns a measure without arguments."""
    return lambda: measure(*words, **options)


class Bench:
    """The program, its peers, and how each is measured."""

    def __init__(self, top, room, program, inputs):
        self.top, self.peers = top, os.path.join(top, "bench", "peers")
        self.room, self.program, self.inputs = room, program, inputs

    def peer(self, name):
        return os.path.join(self.peers, name)

    def pst(self, command, name, *words, unit=1e3, **options):
        """Returns how long the program takes for an input."""
        return seconds(self.program, command, "--quiet", getattr(self.inputs, name), *words, statuses=JUDGED, **options) * unit

    @cached_property
    def new_user(self):
        """The measures of the program that a new user has, which is built without proofs."""
        build = os.path.join(self.top, "tools", "build-native")
        built = subprocess.run([build, "pst"], stdout=subprocess.PIPE, text=True, check=True).stdout.strip()
        return Bench(self.top, self.room, built, self.inputs)

    def lua(self, *words, runs):
        return seconds("lua5.4", *words, runs=runs) * 1e3

    @cached_property
    def search(self):
        path = os.path.join(self.room, "search")
        subprocess.run(["rustc", "-O", "--edition", "2021", "-o", path, self.peer("search.rs")], check=True)
        return path

    def rust_step(self):
        steps, nanoseconds = printed(self.search).split()
        if int(steps) != STEPS:
            raise Failed(f"a search takes {steps} steps and not {STEPS}")
        return float(nanoseconds)

    def campaign(self, system, name, trials, *words, statuses=(0,)):
        """Returns the seconds of a campaign."""
        model = getattr(self.inputs, name)
        return seconds(self.program, "campaign", "--quiet", system, model, "--trials", str(trials), *words, statuses=statuses)

    def rate(self, *words, **options):
        """Returns the trials a second of a campaign."""
        return words[2] / self.campaign(*words, **options)

    def trial(self, *words):
        """Returns the microseconds of a trial with one worker."""
        return 1e6 / self.rate(*words, "--workers", "1")

    def further_drive(self):
        """Returns the microseconds of a drive of `counter` and its verdict: what each repeat adds to a trial."""
        once, five = (self.trial("counter", "counter", TRIALS, "--repeats", repeats) for repeats in ("1", "5"))
        return (five - once) / 4

    def generation(self, name, trials, *words):
        """Returns the microseconds that `pst generate` takes for a case."""
        return self.pst("generate", name, "--trials", str(trials), *words, unit=1e6 / trials)

    def has_proper(self):
        """Whether PropEr and its headers are there; it then has the peer compiled."""
        try:
            return subprocess.run(["erlc", "-o", self.room, self.peer("counter.erl")], capture_output=True).returncode == 0
        except FileNotFoundError:
            return False

    def proper(self, trials, repeats):
        """Returns the tests a second of PropEr, with four testers at the same time."""
        erlang = ["erl", "-noshell", "-env", "ERL_CRASH_DUMP", os.devnull, "-pa", self.room]
        return float(printed(*erlang, "-run", "counter", "main", "4", str(trials), str(repeats), "33"))

    def races(self, name, workers, *words):
        """Returns how many trials have a run that no interleaving explains."""
        words = [*words, "--seed", "7", "--trials", str(RACES), "--repeats", "1", "--limit", "0", "--workers", str(workers)]
        report = printed(self.program, "campaign", "--quiet", "racy", getattr(self.inputs, name), *words, statuses=JUDGED)
        found = re.search(r"^unexplained (\d+)$", report, re.MULTILINE)
        return int(found[1]) if found else 0

    def stream(self, name, processors):
        """Returns the MB a second of `pst judge --stream`."""
        path, verdicts = getattr(self.inputs, name), os.path.join(self.room, "verdicts")
        taken = seconds(self.program, "judge", "--quiet", "--stream", self.inputs.counter, source=path, into=verdicts, processors=processors)
        with open(verdicts, "rb") as file:
            lines = sum(part.count(b"\n") for part in iter(lambda: file.read(1 << 20), b""))
        if lines != RUNS:
            raise Failed(f"{lines} verdicts on {RUNS} runs")
        return os.path.getsize(path) / 1e6 / taken

    def other_stream(self, name, *words, **options):
        """Returns the MB a second of another program that reads the same."""
        path = getattr(self.inputs, name)
        return os.path.getsize(path) / 1e6 / seconds(*words, source=path, **options)

    def memory(self, runs):
        """Returns the greatest memory of a stream, in MB, while its input is still open."""
        words = [self.program, "judge", "--quiet", "--stream", self.inputs.counter]
        with open(self.inputs.trees, "rb") as trees:
            size = len(trees.readline()) * runs
            trees.seek(0)
            judge = subprocess.Popen(words, stdin=subprocess.PIPE, stdout=subprocess.DEVNULL)
            for at in range(0, size, 1 << 20):
                judge.stdin.write(trees.read(min(1 << 20, size - at)))
        judge.stdin.flush()
        with open(f"/proc/{judge.pid}/status", encoding="ascii") as status:
            kilobytes = re.search(r"VmHWM:\s*(\d+)", status.read())[1]
        judge.stdin.close()
        if judge.wait() != 0:
            raise Failed(f"status {judge.returncode}: {' '.join(words)}")
        return int(kilobytes) / 1e3


def programs(b):
    """Lua 5.4 and Rust by hand at the same work."""
    start = of(b.pst, "judge", "start", runs=30)
    yield Group({"pst": start, "lua": of(b.lua, "-e", "", runs=30)}, [Row("start: a model and no items", "ms", "pst", "lua", "Lua 5.4")], {"lua": "lua5.4"})
    for what, name, peer in [("1,000,000 turns of two nested clauses", "turns", "turns.lua"), ("16 folds of 60,000 items", "folds", "fold.lua")]:
        measures = {"pst": of(b.pst, "judge", name, runs=3), "lua": of(b.lua, b.peer(peer), runs=3)}
        yield Group(measures, [Row(what, "ms", "pst", "lua", "Lua 5.4", Aim("at most", 0.7))], {"lua": "lua5.4"})
    step = of(b.pst, "judge", "searches", unit=1e9 / STEPS / SEARCHES, processors=ONE)
    row = Row("a step of the search on a counter, reading included", "ns", "pst", "rust", "Rust by hand", Aim("at most", 3))
    yield Group({"pst": step, "rust": b.rust_step}, [row], {"rust": "rustc"})


def checks(b):
    """What run-time checks cost: the program that a new user has, beside the one of the other rows."""
    turns = lambda bench: bench.pst("judge", "turns", runs=3)
    trials = lambda bench: bench.campaign("counter", "counter", TRIALS, "--repeats", "1") * 1e3
    for what, measure in [("1,000,000 turns of two nested clauses", turns), (f"{TRIALS:,} trials of `counter`, 4 workers, repeats 1", trials)]:
        measures = {"new": lambda measure=measure: measure(b.new_user), "pst": of(measure, b)}
        yield Group(measures, [Row(f"{what}, built without proofs", "ms", "new", "pst", "the program of the other rows", Aim("at most", 3))])


def testers(b):
    """PropEr on the same property, on a quiet machine and a busy one."""
    for trials, around, words in [(TRIALS, None, ""), (BUSY_TRIALS, busy_loops, ", beside four busy loops")]:
        for repeats, bound in [(1, 10.9), (5, 4.5)]:
            measures = {
                "pst": of(b.rate, "counter", "counter", trials, "--repeats", str(repeats), "--workers", "4"),
                "PropEr": of(b.proper, trials, repeats),
            }
            what = f"trials of `counter`, 4 workers, repeats {repeats}{words}"
            aim = None if around else Aim("at least", bound)
            row = Row(what, "a second", "pst", "PropEr", "PropEr, 4 testers", aim)
            yield Group(measures, [row], {"PropEr": "PropEr"}, **({"around": around} if around else {}))


def races(b):
    """How many races one worker sees, beside four."""
    for what, name, words in [
        ("at most two `inc`", "inc", ["--commands", "2"]),
        ("at most two calls, `inc` answers anything", "silent", ["--commands", "2"]),
        ("at most two calls and one after both branches", "silent", ["--commands", "3", "--suffix", "1"]),
    ]:
        measures = {"one": of(b.races, name, 1, *words), "four": of(b.races, name, 4, *words)}
        yield Group(measures, [Row(f"unexplained of {RACES} trials of `racy`, 1 worker: {what}", "", "one", "four", "4 workers")])


def trials(b):
    """How the time of a trial divides."""
    for what, system, count, words in [
        ("a case of 16 commands on `counter`, generated", "counter", TRIALS, []),
        ("a case of 24 commands in three branches on `queue`, generated", "queue", QUEUE_TRIALS, ["--commands", "24", "--branches", "3"]),
    ]:
        measures = {"case": of(b.generation, system, count, *words), "trial": of(b.trial, system, system, count, "--repeats", "1", *words)}
        yield Group(measures, [Row(what, "µs", "case", "trial", "its trial, 1 worker, 1 repeat")])
    rates = {str(workers): of(b.rate, "counter", "counter", TRIALS, "--repeats", "1", "--workers", str(workers)) for workers in (4, 1)}
    yield Group(rates, [Row("trials of `counter`, repeats 1, 4 workers beside 1", "a second", "4", "1", "1 worker")])
    measures = {"drive": b.further_drive, "verdict": of(b.pst, "judge", "driven", unit=1e6 / DRIVEN, processors=ONE)}
    yield Group(measures, [Row("a further drive of 16 commands on `counter`, with its verdict", "µs", "drive", "verdict", "the verdict, reading included")])
    yield Group({"pst": of(b.rate, "registry", "registry", TRIALS, "--repeats", "1")}, [Row("trials of `registry`, 4 workers, repeats 1", "a second", "pst")])
    measures = {"pst": of(b.rate, "racy", "counter", TRIALS, statuses=JUDGED)}
    yield Group(measures, [Row("trials of `racy` with shrinking, 4 workers, repeats 5", "a second", "pst")])


def streams(b):
    """Streams of 1,000,000 runs, beside programs that only read them."""
    for form, words, peer, needs in [
        ("trees", "`cat \\| wc -l`", of(b.other_stream, "trees", "sh", "-c", "cat | wc -l"), {}),
        ("json", "`jq -c .`", of(b.other_stream, "json", "jq", "-c", ".", processors=ONE), {"peer": "jq"}),
    ]:
        measures = {"all": of(b.stream, form, EVERYWHERE), "one": of(b.stream, form, ONE), "peer": peer}
        name = form.upper() if form == "json" else form
        speed_up = Row(f"{RUNS:,} runs by `--stream`, {name}, all processors", "MB/s", "all", "one", "1 processor", Aim("at least", 2.5))
        yield Group(measures, [speed_up, Row(f"{RUNS:,} runs by `--stream`, {name}, 1 processor", "MB/s", "one", "peer", words)], needs)
    numbers = [10_000, 100_000, RUNS]
    rows = [Row(f"memory of `--stream`, {runs:,} runs", "MB", str(runs), "10000", "10,000 runs", Aim("at most", 1.1)) for runs in numbers[1:]]
    yield Group({str(runs): of(b.memory, runs) for runs in numbers}, rows)


def explanations(b):
    """`pst explain` beside `pst judge`."""
    for what, name, aim in [("none of which fails", "cheap", Aim("at most", 3)), ("half of which fail", "half", None)]:
        measures = {"explain": of(b.pst, "explain", name), "judge": of(b.pst, "judge", name)}
        yield Group(measures, [Row(f"`pst explain` of 1 MiB of runs, {what}", "ms", "explain", "judge", "`pst judge`", aim)])


def searches(b):
    """What `pst judge` takes, on all processors beside one, or beside its start."""
    start = of(b.pst, "judge", "start", runs=10)
    for what, name in [("a case of three branches of five `put`s", "three"), ("a case of eight `put`s beside eight", "two")]:
        yield Group({"case": of(b.pst, "judge", name), "start": start}, [Row(what, "ms", "case", "start", "the start")])
    for what, name in [("1 MiB of runs of two commands", "cheap"), ("40 runs of eight `put`s beside eight", "costly")]:
        measures = {"all": of(b.pst, "judge", name), "one": of(b.pst, "judge", name, processors=ONE)}
        yield Group(measures, [Row(f"{what}, all processors", "ms", "all", "one", "1 processor")])
    measures = {name: of(b.pst, "judge", name, unit=1e6 / TIMED, processors=ONE) for name in ("timed", "untimed")}
    what = "a driven run of 16 commands with its times, read and judged, 1 processor"
    yield Group(measures, [Row(what, "µs", "timed", "untimed", "without its times", Aim("at most", 1))])
    for what, command, name, runs in [
        ("eight reads beside eight, 12,870 interleavings, none explains", "judge", "eight", 20),
        ("four branches of four reads, 63,063,000 interleavings, none explains", "judge", "four", 20),
        ("3,000 runs of two commands, half of them lost", "judge", "many", 3),
        ("1 MiB of spaces", "judge", "spaces", 3),
        ("a model file of 1 MiB, checked", "check", "texts", 3),
        ("4,096 puts into a map and as many gets", "judge", "keys", 3),
    ]:
        yield Group({"pst": of(b.pst, command, name, runs=runs)}, [Row(what, "ms", "pst")])


def groups(b):
    """Returns all groups."""
    return [group for part in (programs, checks, testers, races, trials, streams, explanations, searches) for group in part(b)]
