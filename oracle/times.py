"""Compares verdicts on random runs with times: `times.py PROGRAM FIRST COUNT`.

Each number from FIRST on has a model with RUNS runs. Half of them are explained in order of time by construction, each of two with
times of its own, and half are such runs with one answer changed. Of every fifth file the verdicts without times are compared too.
A file on which the two implementations differ is printed whole, and ends the comparison with status 1.
"""
import collections
import pathlib
import sys
import tempfile
from random import Random

from asking import compare, output_of
from judging import verdict
from timed import NoRun, TimedRuns

RUNS = 100


def runs_of(random):
    """The runs of a model that has as many: by turns one that is explained by construction, and one with an answer changed."""
    while True:
        runs = TimedRuns(random)
        try:
            return runs, [run for _ in range(RUNS // 4) for run in four_runs(runs)]
        except NoRun:
            continue


def four_runs(runs):
    """A run, the run with an answer changed, and both with other times."""
    while True:
        run = runs.explained_run()
        changed = runs.with_one_answer_changed(run)
        if changed is not None:
            others = [runs.with_times_around(one, one.merge) for one in (run, changed)]
            return run, changed, *others


def kind_of(line):
    return line.split()[1]


def compare_file(program, file, number):
    """Judges the runs of a number in order of time, and of every fifth number without it too; the kinds of the verdicts."""
    runs, chosen = runs_of(Random(f"times {number}"))
    text = "\n".join([runs.source, *map(runs.text, chosen), ""])
    file.write_text(text)
    items = [run.item() for run in chosen]
    lines = [f"{place} {verdict(runs.of, item)}\n" for place, item in enumerate(items, 1)]
    compare(text, "".join(lines), output_of(program, "judge", file))
    if not all(kind_of(line) == "explained" for line in lines[::2]):
        compare(text, "explained by construction", lines)
    kinds = collections.Counter(map(kind_of, lines))
    if number % 5 == 0:
        without = [f"{place} {verdict(runs.of, item._replace(times=None))}\n" for place, item in enumerate(items, 1)]
        compare(text, "".join(without), output_of(program, "judge", "--order", "none", file))
        kinds["also judged without times"] += len(without)
        kinds["of these explained without times only"] += sum(
            kind_of(line) != "explained" and kind_of(other) == "explained" for line, other in zip(lines, without))
    return kinds


def main():
    program, first, count = sys.argv[1], int(sys.argv[2]), int(sys.argv[3])
    sys.setrecursionlimit(100_000)
    kinds = collections.Counter()
    with tempfile.TemporaryDirectory() as folder:
        file = pathlib.Path(folder, "input")
        for number in range(first, first + count):
            kinds.update(compare_file(program, file, number))
    print(f"{count * RUNS} runs with times: no difference")
    print(", ".join(f"{kind} {kinds[kind]}" for kind in sorted(kinds)))


if __name__ == "__main__":
    main()
