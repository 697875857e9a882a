"""Checks what `pst explain` says of random runs with times by a walk along every interleaving: `explanations.py PROGRAM FIRST COUNT`.

Each number from FIRST on has a model with RUNS runs. Half of them were explained in order of time before one answer was changed. The
others were explained before they got other times, and of every second one of these an answer was changed too. The checks are of what
docs/json.md says of `core`, `allowed`, `only`, `why`, `walk`, `graph` and `in_time`, and that nothing is left out. A file with an item of
which something else is said is printed whole, and ends the checks with status 1.
"""
import collections
import json
import pathlib
import sys
import tempfile
from random import Random

from asking import output_of
from judging import BRANCHES, lengths, merges_keeping, precedences, spelled, verdict
from language import Fault
from timed import NoRun, TimedRuns, wanted_answer
from trees import read
from trees import spelled as spelled_tree
from values import List, Map, Reference, Tuple, tree_of_value, value_of_tree
from walks import Walks, end_of, explains, right_commands

RUNS = 20
# Of more interleavings a search might take more steps than `pst explain` has.
MOST_WORDS = 200
MOST_TURNS = 300
MOST_VALUES = 8
MOST_BYTES = 4_000
MOST_POSITIONS = 150
TRIES = 8


class Difference(Exception):
    """Something else is said of an item than holds."""


def want(condition, text):
    if not condition:
        raise Difference(text)


def text_of(value):
    """The spelling of a value in a state."""
    if isinstance(value, Reference):
        return f"${value.number}={text_of(value.value)}"
    if isinstance(value, (Tuple, List)):
        return " ".join(["(tuple" if isinstance(value, Tuple) else "(list", *map(text_of, value.items)]) + ")"
    if isinstance(value, Map):
        return " ".join(["(map", *(f"({text_of(key)} {text_of(part)})" for key, part in value.entries)]) + ")"
    return spelled_tree(tree_of_value(value))


def shows(said, value):
    """Whether a text is the spelling of a value, or of a longer one its beginning and end."""
    text = text_of(value)
    is_cut = len(text) > MOST_BYTES and len(said) <= MOST_BYTES and (said[:100], said[-100:]) == (text[:100], text[-100:])
    return said == text or is_cut


def numbers_of_calls(parts):
    """The index of each command by the name that the document gives it."""
    names = ["P", *BRANCHES[:len(parts) - 2], "X"]
    found = [f"{name}{index}" for name, part in zip(names, parts) for index in range(1, len(part) + 1)]
    return {name: index for index, name in enumerate(found)}


class Checks:
    """The checks of what is said of one run."""

    def __init__(self, model, item, said):
        self.model, self.item, self.said = model, item, said
        self.walks = Walks(model, item)
        self.numbers = numbers_of_calls(self.item.parts)
        self.ids = list(self.numbers)
        self.counts = collections.Counter()

    def check(self):
        """Checks all that is said. Returns what was counted on the way."""
        line = verdict(self.model, self.item)
        want(self.said["line"] == line and self.said["verdict"] == line.split()[0], f"the verdict is {line}")
        want("left_out" not in self.said, "something is left out")
        want(self.said["order"] == "time" and "orders" not in self.said["search"], "the order of the times is what counts")
        self.check_calls()
        is_explained = line.startswith("explained")
        want(("core" in self.said) == (not is_explained), "a core is there exactly if the run is not explained")
        if not is_explained:
            self.check_core()
        self.check_walk(line)
        if not is_explained:
            self.check_graph()
        self.check_in_time(is_explained)
        self.counts[line.split()[0]] += 1
        return self.counts

    def check_calls(self):
        times = [None] * len(self.item.parts[0]) + [time for part in self.item.times for time in part]
        times += [None] * len(self.item.parts[-1])
        want([call["id"] for call in self.said["calls"]] == self.ids, f"the calls are {self.ids}")
        for index, (call, time) in enumerate(zip(self.said["calls"], times)):
            want(call["number"] == index + 1, f"{call['id']} has the number {index + 1}")
            want(shows(call["reply"]["text"], self.walks.answer(index)), f"{call['id']} has another reply")
            want(call.get("time") == (time and list(time)), f"{call['id']} has the time {time}")

    # -- the core

    def check_core(self):
        core = [self.numbers[answer["call"]] for answer in self.said["core"]]
        right = {right_commands(walk) for walk in self.walks.in_time} - {None}
        is_possible = lambda numbers: any(numbers <= one for one in right)
        want(not is_possible(set(core)), "the answers of the core can all be right")
        for number in core:
            want(is_possible(set(core) - {number}), f"the core is impossible without {self.ids[number]}")
        least = set(range(len(self.ids)))
        for number in reversed(range(len(self.ids))):
            if not is_possible(least - {number}):
                least.remove(number)
        want(core == sorted(least), f"the core without the greatest numbers is {sorted(self.ids[one] for one in least)}")
        is_in_prefix = core != [] and all(number < len(self.item.parts[0]) for number in core)
        want(self.said.get("prefix", False) == is_in_prefix, "`prefix` is there exactly if the core is in the prefix")
        for number, answer in zip(core, self.said["core"]):
            self.check_answer(number, set(core) - {number}, answer)

    def check_answer(self, number, others, said):
        """What is said of an answer of a core: in these walks all others of the core are right."""
        walks = [walk for walk in self.walks.in_time if walk.fault is None and others <= right_commands(walk)]
        states = [walk.states[walk.order.index(number)] for walk in walks]
        post = self.walks.operation(number).callbacks["post"]
        has_one = wanted_answer(post) is not None or post == ["not", "r"]
        if "allowed" in said:
            self.check_allowed(number, states, has_one, said["allowed"])
        elif has_one:
            self.counts["answers of which none is named"] += 1
            self.counts["  and one is allowed"] += any(self.is_allowed(number, states, one) for one in self.probes(number, states))
        want(("why" in said) == ("allowed" not in said or not has_one), f"{said['call']} has a reason exactly if it needs one")
        if "why" in said:
            want(said["why"].get("by") == (spelled(walks[0].word) if walks[0].word else None), f"{said['call']} is wrong by another interleaving")
            want(shows(said["why"]["state"], states[0]), f"before {said['call']} is the state {text_of(states[0])}")

    def check_allowed(self, number, states, has_one, said):
        name = self.ids[number]
        if any("bytes" in value for value in said["values"]):
            self.counts["answers with an allowed value that is cut"] += 1
            return
        values = [value_of_tree(read(value["text"])[0], self.model.has_maps, False) for value in said["values"]]
        want(1 <= len(values) <= MOST_VALUES, f"{name} has {len(values)} allowed values")
        want(len({text_of(value) for value in values}) == len(values), f"{name} has an allowed value twice")
        for value in values:
            want(self.is_allowed(number, states, value), f"{text_of(value)} is not allowed for {name}")
        is_beyond = lambda state: all(self.walks.post(state, number, value) is False for value in values)
        is_all = not any(map(is_beyond, states))
        want(said["all"] == is_all, f"`all` of {name} is {is_all}")
        want(said["only"] == (is_all and has_one), f"`only` of {name} is {is_all and has_one}")
        if said["only"]:
            for value in self.probes(number, states):
                want(value in values or not self.is_allowed(number, states, value), f"{text_of(value)} is allowed for {name} too")
        self.counts["allowed values"] += len(values)

    def is_allowed(self, number, states, value):
        return any(self.walks.post(state, number, value) is True for state in states)

    def probes(self, number, states):
        """Answers that may be right for a command: those of all commands like it, and what its postcondition equates."""
        kind = self.walks.operation(number).result
        found = [self.walks.answer(index) for index in range(len(self.ids)) if self.walks.operation(index).result == kind]
        found += [True, False] if kind == "bool" else []
        wanted = wanted_answer(self.walks.operation(number).callbacks["post"])
        for state in states if wanted is not None else []:
            try:
                found.append(self.model.run(wanted, self.walks.names(state, number)))
            except Fault:
                continue
        return found

    # -- the walk

    def check_walk(self, line):
        kind, walk, count = self.walk_of_verdict(line)
        said = self.said["walk"]
        want(said["kind"] == kind, f"the walk is one that {kind}")
        done = [self.ids[index] for index in walk.order[:count]]
        shown = walk.order[:count + (kind == "faults" and count < len(walk.order) and walk.states != [])]
        word = "".join(self.ids[index][0] for index in shown if self.ids[index][0] in BRANCHES) or "-"
        want(said["word"] == word, f"the word of the walk is {word}")
        want([step["call"] for step in said["steps"]] == done, f"the steps are {done}")
        want(("start" in said) == (walk.states != []), "the walk starts on a state exactly if there is one")
        want("start" not in said or shows(said["start"], walk.states[0]), "the walk starts on another state")
        for place, step in enumerate(said["steps"]):
            want(shows(step["state"], walk.states[place + 1]), f"after {step['call']} is the state {text_of(walk.states[place + 1])}")
            before = self.walks.pre(walk.states[place], walk.order[place])
            want(step.get("pre") == {True: None, False: "false"}.get(before, before), f"the precondition of {step['call']} is {before}")
        if kind == "furthest":
            self.check_next(walk, count)

    def walk_of_verdict(self, line):
        """The kind of the walk that a verdict has, the walk itself, and how many of its events are shown."""
        words = line.split()
        for walk in self.walks.in_time:
            count, why = end_of(walk)
            if words[0] == "explained" and why is None:
                return "explains", walk, count
            if words[0] == "unexplained" and why == "false" and count == int(words[2]):
                return "furthest", walk, count
            if words[0] == "fault" and why not in (None, "false"):
                return "faults", walk, count
        raise Difference(f"no interleaving in order of time has the verdict {line}")

    def check_next(self, walk, count):
        """The commands that may come next in order of time, each of which is wrong there."""
        following = {other.order[count] for other in self.walks.in_time if other.order[:count] == walk.order[:count]}
        said = self.said["walk"]["next"]
        wanted = [self.ids[index] for index in sorted(following)]
        want([one["call"] for one in said] == wanted, f"next may come {wanted}")
        for index, one in zip(sorted(following), said):
            state, post = walk.states[count], self.walks.operation(index).callbacks["post"]
            want(self.walks.post(state, index, self.walks.answer(index)) is False, f"{one['call']} is not wrong next")
            if "value" in one["why"].get("wants", {}) and one["why"]["part"] == spelled_tree(post):
                value = value_of_tree(read(one["why"]["wants"]["text"])[0], self.model.has_maps, False)
                want(self.walks.post(state, index, value) is True, f"{text_of(value)} is wrong for {one['call']}")

    # -- the graph

    def check_graph(self):
        """The graph has the position after each true event, and for each call that may come next there the one after it, or none."""
        wanted = collections.defaultdict(dict)
        for walk in self.walks.in_time:
            count = end_of(walk)[0]
            for place, index in enumerate(walk.order[:count + 1]) if walk.states else []:
                following = self.position(walk, place + 1) if place < count else None
                wanted[self.position(walk, place)][self.ids[index]] = following
        is_small = len(wanted) <= MOST_POSITIONS
        want(("graph" in self.said) == is_small, f"a graph is there exactly if it has few positions, and it has {len(wanted)}")
        if not is_small or any(len(state) > MOST_BYTES for _, state in wanted):
            return
        nodes = [(tuple(node["at"]), node["state"]) for node in self.said["graph"]["nodes"]]
        found = {node: {} for node in nodes}
        for edge in self.said["graph"]["edges"]:
            found[nodes[edge["from"]]][edge["call"]] = nodes[edge["to"]] if "to" in edge else None
        want(len(found) == len(nodes) and found == wanted, f"the graph is {dict(wanted)}")
        self.counts["positions in graphs"] += len(nodes)

    def position(self, walk, place):
        """How many calls of each part are done before a place of a walk, and the state there."""
        done, first = [], 0
        for count in lengths(self.item.parts):
            done.append(sum(first <= index < first + count for index in walk.order[:place]))
            first += count
        return tuple(done), text_of(walk.states[place])

    # -- the order in time

    def check_in_time(self, is_explained):
        explaining = [] if is_explained else [walk for walk in self.walks.all if explains(walk)]
        want(("in_time" in self.said) == (explaining != []), "`in_time` is there exactly if the order in time is what stands against it")
        if not explaining:
            return
        said = self.said["in_time"]
        want(said["without"] == spelled(explaining[0].word), f"without times the first is {spelled(explaining[0].word)}")
        pairs = [tuple(self.place(one[key]) for key in ("earlier", "later")) for one in said["against"]]
        recorded = precedences(self.item.times)
        words = {walk.word for walk in explaining}
        is_possible = lambda pairs: any(word in words for word in merges_keeping(self.item.parts, pairs))
        want(len(set(pairs)) == len(pairs) and all(pair in recorded for pair in pairs), "a precedence is not recorded, or there twice")
        want(not is_possible(pairs), f"an interleaving that keeps all of {said['against']} explains it")
        for pair in pairs:
            want(is_possible([other for other in pairs if other != pair]), f"{pair} is not needed")
        self.counts["ruled out by the order in time"] += 1
        self.counts["precedences"] += len(pairs)

    def place(self, name):
        """The branch and index of a call of a branch."""
        index = self.numbers[name] - len(self.item.parts[0])
        for branch, count in enumerate(lengths(self.item.parts[1:-1])):
            if index < count:
                return branch, index
            index -= count
        raise Difference(f"{name} is not in a branch")


# ---- inputs


def runs_of(random):
    """The runs of a model that has as many."""
    while True:
        runs = TimedRuns(random, MOST_WORDS, MOST_TURNS)
        try:
            return runs, [run_of(runs, number) for number in range(RUNS)]
        except NoRun:
            continue


def run_of(runs, number):
    """A run with one answer changed, one with other times, or one with both."""
    while True:
        run = runs.explained_run() if number < RUNS // 2 else stale_run(runs)
        if number < RUNS // 2 or number % 2:
            run = runs.with_one_answer_changed(run)
        if run is not None:
            return run


def stale_run(runs):
    """A run that is explained without its times and, if one was found in some tries, not in their order."""
    for _ in range(TRIES):
        explained = runs.explained_run()
        for _ in range(TRIES):
            merge = runs.random.sample(explained.merge, len(explained.merge))
            run = runs.with_times_around(explained, merge)
            if not verdict(runs.of, run.item()).startswith("explained"):
                return run
    return run


def check_file(program, file, random):
    """Checks what is said of the runs of a file. Returns what was counted."""
    runs, chosen = runs_of(random)
    text, counts = "\n".join([runs.source, *map(runs.text, chosen), ""]), collections.Counter()
    file.write_text(text)
    document = json.loads(output_of(program, "explain", "--format", "json", file))
    for run, said in zip(chosen, document["items"], strict=True):
        try:
            counts.update(Checks(runs.of, run.item(), said).check())
        except (Difference, KeyError) as difference:
            print(f"{text}\n{json.dumps(said)}\n\n{runs.text(run)}\nitem {said['item']}: {difference!r}")
            sys.exit(1)
    return counts


def main():
    program, first, count = sys.argv[1], int(sys.argv[2]), int(sys.argv[3])
    sys.setrecursionlimit(100_000)
    counts = collections.Counter()
    with tempfile.TemporaryDirectory() as folder:
        file = pathlib.Path(folder, "input")
        for number in range(first, first + count):
            counts.update(check_file(program, file, Random(f"explanations {number}")))
    print(f"{count * RUNS} explanations of runs with times: no difference")
    print(", ".join(f"{kind} {counts[kind]}" for kind in sorted(counts)))


if __name__ == "__main__":
    main()
