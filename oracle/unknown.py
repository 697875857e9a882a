"""Compares verdicts on random runs with calls of unknown outcome, and checks what `pst explain` says of them: `unknown.py PROGRAM FIRST COUNT`.

Each number from FIRST on has a model with RUNS runs. The verdicts, in order of time and without it, have to be those of sets of calls that
took effect. Of the runs that are not explained the core and the allowed answers are checked by all words of calls, as docs/json.md says.
A file on which the two differ is printed whole, and ends the comparison with status 1.
"""
import collections
import json
import pathlib
import sys
import tempfile
from random import Random

from asking import compare, output_of
from inputs import Inputs
from judging import Outcomes, Refused, calls_along, columns_of, lines, read_item, words_of_calls
from language import Fault, Model
from trees import read
from values import Reference, Variable, value_of_tree, with_parts

RUNS = 20


class Asking(Outcomes):
    """What becomes of calls in an order if only some answers are checked: those recorded, or others in their place."""

    def __init__(self, model, item, state, rules):
        super().__init__(model, item, state)
        self.rules = rules

    def step(self, state, index):
        operation, reply = self.model.operations[self.commands[index].operation], self.replies[index]
        recorded = lambda variable: Reference(variable.number, self.replies[variable.number - 1].value)
        names = operation.names(state, [with_parts(argument, recorded) for argument in self.commands[index].arguments])
        is_right = lambda value: self.model.run(operation.callbacks["post"], {**names, "r": value})
        is_unknown = reply == "unknown"
        try:
            if not is_unknown and not self.rules.get(index, lambda right, recorded: True)(is_right, reply.value):
                return None, None
            result = Variable(index + 1) if is_unknown else Reference(index + 1, reply.value)
            return self.model.run(operation.callbacks["next"], {**names, "r": result}), None
        except Fault as fault:
            return None, None if is_unknown else str(fault)


def is_possible(model, item, rules):
    """Whether some word of calls makes the rules true, and no callback faults."""
    try:
        state = model.run(model.single["init"], {})
    except Fault:
        return False
    prefix, columns = columns_of(item)
    outcomes = Asking(model, item, state, rules)
    orders = (prefix + calls_along(columns, word) for word, _ in words_of_calls(item, columns))
    return any(outcomes.end(calls)[0] == len(calls) for calls in orders)


def own(is_right, recorded):
    return is_right(recorded)


def instead(value):
    return lambda is_right, recorded: is_right(value)


def none_of(values):
    return lambda is_right, recorded: not any([is_right(value) for value in values])


def fault_of_explanation(model, item, said):
    """What is said of a run and does not hold, if anything is."""
    numbers = {call["id"]: call["number"] - 1 for call in said["calls"]}
    core = [numbers[answer["call"]] for answer in said["core"]]
    if is_possible(model, item, dict.fromkeys(core, own)):
        return "the answers of the core can all be right"
    for answer, index in zip(said["core"], core):
        rest = {other: own for other in core if other != index}
        if not is_possible(model, item, rest):
            return f"without {answer['call']} the others cannot be right"
        allowed = answer.get("allowed")
        if allowed:
            values = [value_of_tree(read(value["text"])[0], model.has_maps, False) for value in allowed["values"]]
            if not all(is_possible(model, item, {**rest, index: instead(value)}) for value in values):
                return f"an allowed answer of {answer['call']} is wrong"
            if is_possible(model, item, {**rest, index: none_of(values)}) == allowed["all"]:
                return f"whether {answer['call']} has other answers is wrong"
    return None


def runs_of(random):
    """A model, and runs of it with calls of unknown outcome that are not refused."""
    while True:
        inputs = Inputs(random)
        inputs.unknowns = 1.0
        source = inputs.model()
        model, runs = Model(read(source)[0]), []
        for _ in range(RUNS * 10):
            if model.first_ill_typed() is not None or len(runs) == RUNS:
                break
            run = inputs.item(model)
            try:
                item = read_item(model, read(run)[0])
            except Refused:
                continue
            if item.replies is not None and "unknown" in item.replies:
                runs.append(run)
        if len(runs) == RUNS:
            return source, model, runs


def compare_file(program, file, random):
    """Compares the verdicts on the runs of a file, and checks their explanations; the kinds of the verdicts."""
    source, model, runs = runs_of(random)
    text = "\n".join([source, *runs, ""])
    file.write_text(text)
    trees = read(text)[1:]
    wanted = tuple(lines(model, trees, in_time) for in_time in (True, False))
    compare(text, wanted, tuple(output_of(program, "judge", *words, file) for words in ([], ["--order", "none"])))
    for in_time, words in (True, []), (False, ["--order", "none"]):
        for said, tree in zip(json.loads(output_of(program, "explain", "--format", "json", *words, file))["items"], trees):
            item = read_item(model, tree)
            if "core" in said:
                found = fault_of_explanation(model, item if in_time else item._replace(times=None), said)
                compare(text, None, found and f"item {said['item']}: {found}")
    return collections.Counter(line.split()[1] for line in wanted[0].splitlines())


def main():
    program, first, count = sys.argv[1], int(sys.argv[2]), int(sys.argv[3])
    sys.setrecursionlimit(100_000)
    kinds = collections.Counter()
    with tempfile.TemporaryDirectory() as folder:
        file = pathlib.Path(folder, "input")
        for number in range(first, first + count):
            kinds.update(compare_file(program, file, Random(f"unknown {number}")))
    print(f"{count * RUNS} runs with calls of unknown outcome: no difference")
    print(", ".join(f"{kind} {kinds[kind]}" for kind in sorted(kinds)))


if __name__ == "__main__":
    main()
