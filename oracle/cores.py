"""Compares the cores that a file of tables wants with a search through all sets of commands: `cores.py FILE`.

The rows of a table are recorded runs over the model that the table's head names, in the folder `models` beside that of the file: `RUN => core N ..`, or
`RUN => explained`. The core of a run is the least set of its commands whose postconditions no interleaving makes true
together: of all such sets it has the least greatest command, then the least one below it, and so on. A row that wants
something else is printed, with what was found, and ends the comparison with status 1.
"""
import pathlib
import re
import sys

from judging import commands_of, merges_in_time, order_of, read_item
from language import Fault, Model
from trees import read
from values import Reference, with_parts


def right_along(model, item, merge):
    """The set of the commands whose postconditions are true along a merge, or None where `init` or a `next` faults."""
    commands, replies, right = commands_of(item.parts), item.replies, 0
    recorded = lambda variable: Reference(variable.number, replies[variable.number - 1].value)
    try:
        state = model.run(model.single["init"], {})
        for index in order_of(item.parts, merge):
            operation, answer = model.operations[commands[index].operation], replies[index].value
            names = operation.names(state, [with_parts(argument, recorded) for argument in commands[index].arguments])
            right |= is_right(model, operation, {**names, "r": answer}) << index
            state = model.run(operation.callbacks["next"], {**names, "r": Reference(index + 1, answer)})
    except Fault:
        return None
    return right


def is_right(model, operation, names):
    try:
        return model.run(operation.callbacks["post"], names)
    except Fault:
        return False


def core_of(model, item):
    """The least set of commands that no merge makes right together, or None where all can be right."""
    sets = {right_along(model, item, merge) for merge in merges_in_time(item)} - {None}
    count = len(commands_of(item.parts))
    found = (wanted for wanted in range(1 << count) if all(wanted & ~right for right in sets))
    wanted = next(found, None)
    return None if wanted is None else [number + 1 for number in range(count) if wanted >> number & 1]


def wanted_of(model, run):
    core = core_of(model, read_item(model, read(run)[0]))
    return "explained" if core is None else " ".join(["core", *map(str, core)])


def main():
    file, count = pathlib.Path(sys.argv[1]), 0
    for table in file.read_text().split("\ntable ")[1:]:
        name = re.search(r"^before \{(\w+)\}$", table, re.M)[1]
        model = Model(read((file.parent.parent / "models" / f"{name}.model").read_text())[0])
        for run, wanted in re.findall(r"^(\(run .*) => (.*)$", table, re.M):
            found = wanted_of(model, run)
            if found != wanted:
                print(f"{run} => {wanted}\n  found {found}")
                sys.exit(1)
            count += 1
    print(f"the cores of {count} runs: no difference")


if __name__ == "__main__":
    main()
