"""Asks the program and this implementation of random inputs: `compare.py PROGRAM FIRST COUNT`.

The random numbers of each input come from its number, from FIRST on. An input on which the two differ is printed
whole, and ends the comparison with status 1.
"""
import collections
import pathlib
import sys
import tempfile
from random import Random

from asking import compare, output_of
from campaigns import report
from inputs import Inputs
from judging import lines
from language import Model
from plans import campaign_model, campaign_plan
from trees import read

ITEMS = 6


def compare_judging(program, file, random):
    """`pst check` and `pst judge` on a random model and items; the kinds of the verdicts that were wanted."""
    inputs = Inputs(random)
    source = inputs.model()
    model = Model(read(source)[0])
    ill, items = model.first_ill_typed(), []
    if ill is not None:
        wanted = (f"refused type item {ill}\n",) * 3
    else:
        items = [inputs.item(model) for _ in range(ITEMS)]
        source += "\n" + "\n".join(items) + "\n"
        trees = read(source)[1:]
        wanted = (f"ok {model.name}\n", lines(model, trees), lines(model, trees, in_time=False))
    file.write_text(source)
    asked = [["check"], ["judge"], ["judge", "--order", "none"]]
    compare(source, wanted, tuple(output_of(program, *words, file) for words in asked))
    found = [line.split()[1] for line in wanted[1].splitlines()]
    unknown = [kind for kind, item in zip(found, items) if len(found) == ITEMS and " unknown" in item.replace("(", " ")]
    return found + ["with calls of unknown outcome"] * len(unknown) + [f"{kind} with calls of unknown outcome" for kind in unknown]


def compare_campaign(program, file, random):
    """`pst campaign stuck` on a random model and plan; the report that was wanted."""
    source, plan = campaign_model(random), campaign_plan(random)
    model = Model(read(source)[0])
    if model.first_ill_typed() is not None:
        raise AssertionError(source)
    wanted = report(model, plan)
    file.write_text(source)
    words = [word for name, number in plan.items() for word in (f"--{name}", str(number))]
    workers = str(random.choice([1, 2]))
    compare(f"{source}\n{plan}", wanted, output_of(program, "campaign", "stuck", file, *words, "--workers", workers))
    return wanted


def main():
    program, first, count = sys.argv[1], int(sys.argv[2]), int(sys.argv[3])
    sys.setrecursionlimit(100_000)
    kinds = collections.Counter()
    with tempfile.TemporaryDirectory() as folder:
        file = pathlib.Path(folder, "input")
        for number in range(first, first + count):
            kinds.update(compare_judging(program, file, Random(2 * number)))
            text = compare_campaign(program, file, Random(2 * number + 1))
            kinds["campaigns that fail" if "least none" not in text else "campaigns that pass"] += 1
    print(f"{count} models with {ITEMS} items each and {count} campaigns: no difference")
    print(", ".join(f"{kind} {kinds[kind]}" for kind in sorted(kinds)))


main()
