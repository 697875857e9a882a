#!/usr/bin/env python3
"""Compares the forms of `pst explain`: explanations.py PROGRAM [FILE..]

For each input the JSON has to be as docs/json.md says, and the text has to be the one that is written here from the JSON alone. The page has to
have the JSON in it. The inputs are the files that are named, or else the examples, those of crates/pst_rows/data/explained, those with times of
the docs, the rows and the page's tests, runs with times and with unknown outcomes at random, and some that are made of these by changing
answers and arguments.
"""
import glob, json, os, random, re, subprocess, sys

TOP = os.path.dirname(os.path.dirname(os.path.abspath(__file__)))
WIDTH = 1000

# The schema. A key that ends in `?` may be absent; a type, a tuple of words, a list of one schema, or a dict of keys.
VALUE = {"text": str, "value?": object, "bytes?": int}
WHY = {"text": str, "part?": str, "wants?": VALUE, "compares?": [str]}
NAMES = [[str]]
ALLOWED = {"values": [VALUE], "all": bool, "only": bool}
ITEM = {
    "item": int, "kind": ("run", "case"), "verdict": ("explained", "unexplained", "fault", "broken", "valid", "prefalse", "casefault"),
    "line": str, "order?": ("time",), "at": {"file": str, "line": int},
    "calls": [{"id": str, "number": int, "part": tuple("PLRSTX"), "index": int, "op": str, "args": [VALUE], "reply?": VALUE,
               "time?": "time"}],
    "in_time?": {"without": str, "against": [{"earlier": "call", "later": "call"}]},
    "core?": [{"call": "call", "why?": {**WHY, "by?": str, "state": str}, "allowed?": ALLOWED}], "prefix?": bool,
    "walk?": {"kind": ("explains", "furthest", "faults", "breaks"), "word": str, "start?": str,
              "steps": [{"call": "call", "state": str, "pre?": str}], "next": [{"call": "call", "why": WHY}]},
    "callback?": {"call": "call or null", "callback": ("init", "pre", "next", "post"), "outcome": str, "expr": str, "names": NAMES,
                  "part?": {"expr": str, "names": NAMES, "function?": str}},
    "broken?": {"call": "call", "wanted?": str, "after?": "call", "needs?": "call", "next?": bool}, "no_effect?": ["call"],
    "search": {"orders?": int, "positions?": int, "moves?": int},
    "graph?": {"nodes": [{"at": [int], "state": str}], "edges": [{"from": "node", "call": "call", "to?": "node", "on?": bool, "why?": WHY}]},
}
PARAMS = [[str]]
MODEL = {"name": str, "state": str, "init": str,
         "ops": [{"name": str, "params": PARAMS, "result": str, "pre": str, "next": str, "post": str}],
         "funs": [{"name": str, "params": PARAMS, "result": str, "body": str}]}
DOCUMENT = {"pst": (1,), "files": [str], "model": MODEL, "items": [ITEM]}
NEEDED = {"explained": {"walk"}, "unexplained": {"walk", "core"}, "fault": {"walk", "core", "callback"}, "broken": {"broken"}, "valid": set(),
          "prefalse": {"walk", "callback"}, "casefault": {"walk", "callback"}}


def check(value, schema, path, item=None):
    """Raises AssertionError if the value is not as the schema says."""
    if schema is object:
        return
    if isinstance(schema, list):
        assert type(value) is list, f"{path} is no list"
        for at, each in enumerate(value):
            check(each, schema[0], f"{path}[{at}]", each if schema[0] is ITEM else item)
    elif isinstance(schema, dict):
        assert type(value) is dict, f"{path} is no object"
        keys = {key.rstrip("?"): each for key, each in schema.items()}
        for key in value:
            assert key in keys, f"{path} has {key}"
            check(value[key], keys[key], f"{path}.{key}", item)
        for key in schema:
            assert key.endswith("?") or key in value, f"{path} lacks {key}"
    elif isinstance(schema, tuple):
        assert value in schema, f"{path} is {value!r}"
    elif schema == "node":
        assert 0 <= value < len(item["graph"]["nodes"]), f"{path} is no node"
    elif schema == "time":
        began, answered = value
        assert type(began) is int and (answered is None or type(answered) is int and began <= answered), f"{path} is {value!r}"
    elif schema in ("call", "call or null"):
        assert value in {call["id"] for call in item["calls"]} or (value is None and schema != "call"), f"{path} is no call"
    else:
        assert type(value) is schema, f"{path} is {value!r}"


def spelled(value):
    """Spells a value that is written as JSON."""
    if isinstance(value, bool):
        return str(value).lower()
    if isinstance(value, int):
        return str(value)
    if isinstance(value, str):
        return '"' + value.replace("\\", "\\\\").replace('"', '\\"') + '"'
    if isinstance(value, list):
        return " ".join(["(list", *map(spelled, value)]) + ")"
    (kind,) = [key for key in value if key != "value"]
    of = value[kind]
    if kind == "int":
        assert abs(int(of)) > 2**53 - 1
        return of
    if kind == "tuple":
        return " ".join(["(tuple", *map(spelled, of)]) + ")"
    if kind == "map":
        return " ".join(["(map", *(f"({spelled(key)} {spelled(each)})" for key, each in of)]) + ")"
    if kind == "call":
        return " ".join(["(" + of[0], *map(spelled, of[1:])]) + ")"
    return f"${of}" + (f"={spelled(value['value'])}" if kind == "ref" else "")


def check_values(value):
    """Checks that each value of a document is spelled as its JSON says, and is long if it has its length alone."""
    if isinstance(value, list):
        for each in value:
            check_values(each)
    elif isinstance(value, dict):
        if "text" in value and "value" in value:
            assert spelled(value["value"]) == value["text"], f"{value} is spelled as {spelled(value['value'])}"
        assert "bytes" not in value or value["bytes"] > 4000 and len(value["text"]) <= 4000
        for key, each in value.items():
            if key != "value":
                check_values(each)


class Text:
    """The text of an item, written from its JSON."""

    def __init__(self, document, item, is_timed):
        self.item, self.lines, self.is_timed = item, [], is_timed
        self.interleaving = "interleaving in order of time" if is_timed else "interleaving"
        self.calls = {call["id"]: call for call in item["calls"]}
        self.has_unknown = any(map(is_unknown, self.calls.values()))
        self.posts = {op["name"]: op["post"] for op in document["model"]["ops"]}
        place = f"line {item['at']['line']}"
        if len(document["files"]) > 1:
            place = f"{item['at']['file']} {place}"
        self.add(f"{item['item']} {item['line']} ({place})")
        getattr(self, "of_" + item["verdict"])()

    def add(self, *cells):
        self.lines.append("   ".join(cell for cell in cells if cell))

    def call(self, call):
        return f"{call['id']} (" + " ".join([call["op"], *(arg["text"] for arg in call["args"])]) + ")"

    def replied(self, call):
        return self.call(call) + " -> " + (call["reply"]["text"] if "reply" in call else f"${call['number']}")

    def time(self, call):
        if not self.is_timed or "time" not in call:
            return ""
        began, answered = call["time"]
        return f" ({began} {'-' if answered is None else answered})"

    def run(self, marked):
        cell = lambda call: ("*" if call["id"] in marked else " ") + self.replied(call) + self.time(call)
        part = lambda letter: [cell(call) for call in self.calls.values() if call["part"] == letter]
        for each in part("P"):
            self.add(each)
        branches = [part(letter) for letter in "LRST"]
        for at in range(max(map(len, branches))):
            self.add(*(branch[at] for branch in branches if at < len(branch)))
        for each in part("X"):
            self.add(each)

    def states(self):
        walk = self.item["walk"]
        if "start" in walk:
            self.add("at first", "state " + walk["start"])
            for step in walk["steps"]:
                self.add(self.replied(self.calls[step["call"]]), "state " + step["state"])

    def core(self):
        core = self.item["core"]
        self.add({0: "No answer is to blame: the model faults in every interleaving, whatever is answered.",
                  1: "This answer cannot be right, whatever the others are:"}.get(
                      len(core), "These answers cannot all be right; without any one of them the others can:"))
        for answer in core:
            call, why, allowed = self.calls[answer["call"]], answer.get("why"), answer.get("allowed")
            self.add(self.call(call) + " answered " + call["reply"]["text"], "postcondition " + self.posts[call["op"]],
                     why and why["text"] + (f", in the order {why['by']}" if "by" in why else ""),
                     allowed and "allowed: " + ", ".join(each["text"] for each in allowed["values"]) + ("" if allowed["all"] else " .."))
        if self.item.get("prefix"):
            self.add("The prefix alone shows it: no race is needed.")
        self.add("The run, with * before what is reported above:" if core else "The run:")
        self.run({answer["call"] for answer in core})

    def in_time(self):
        found = self.item.get("in_time")
        if found:
            self.add(f"Without the order in time {found['without']} would explain it. Against it:")
            for each in found["against"]:
                earlier, later = (self.call(self.calls[each[side]]) for side in ("earlier", "later"))
                self.add(f"{later} began after {earlier} had been answered")

    def expression(self, found):
        self.add(found["expr"])
        for name, value in found["names"]:
            self.add(name, value)

    def failure(self):
        found, word = self.item["callback"], self.item["walk"]["word"]
        call = self.calls.get(found["call"])
        if call is None:
            self.add(f"The initial state faults with {found['outcome']}:")
        elif found["outcome"] == "false":
            self.add(f"In the interleaving {word} the precondition of {self.call(call)} is false:")
        else:
            branches = sum(call["part"] in "LRST" for call in self.calls.values())
            is_whole = len(word.strip("-")) == branches and not self.has_unknown
            how = "in the interleaving" if is_whole else "in an interleaving that begins with"
            self.add(f"The callback {found['callback']} of {self.replied(call) if 'reply' in call else self.call(call)} faults with {found['outcome']}"
                     + (f" {how} {word}" if call["part"] != "P" else "") + ":")
        self.expression(found)
        if "part" in found:
            function = found["part"].get("function")
            self.add("It faults in this part" + (f" of the function {function}:" if function else ":"))
            self.expression(found["part"])
        if call:
            self.add("The states before it:")
            self.states()

    def of_explained(self):
        self.states()
        for step in self.item["walk"]["steps"]:
            if "pre" in step:
                how = "is false" if step["pre"] == "false" else f"faults with {step['pre']}"
                self.add(f"The precondition of {self.call(self.calls[step['call']])} {how} there; the verdict on a recorded run does not depend on it.")
        idle = [call["id"] for call in self.calls.values() if is_unknown(call) and call["id"] not in [step["call"] for step in self.item["walk"]["steps"]]]
        assert idle == self.item.get("no_effect", []), f"{idle} took no effect"
        if idle:
            self.add(", ".join(self.replied(self.calls[each]) for each in idle) + " took no effect, or only after the last answer.")

    def of_unexplained(self):
        self.core()
        self.in_time()
        walk, far = self.item["walk"], int(self.item["line"].split()[-1])
        events = "1 event holds" if far == 1 else f"{far} events hold"
        self.add(f"In every {self.interleaving} the first event does not hold:" if far == 0 else
                 f"In every {self.interleaving} {events} before one does not:" if walk["word"] == "-" else
                 f"No {self.interleaving} gets further than {walk['word']}, where {events}:")
        assert len(walk["steps"]) == far
        self.states()
        self.add("There no next command fits:" if any(is_unknown(self.calls[stopped["call"]]) for stopped in walk["next"]) else
                 f"There the postcondition of {'the' if len(walk['next']) == 1 else 'each'} next command is false:")
        for stopped in walk["next"]:
            self.add(self.replied(self.calls[stopped["call"]]), stopped["why"]["text"])

    def of_fault(self):
        self.failure()
        self.core()
        self.in_time()

    of_prefalse = of_casefault = failure

    def of_valid(self):
        pass

    def of_broken(self):
        broken = self.item["broken"]
        call = self.calls[broken["call"]]
        other = lambda key: self.call(self.calls[broken[key]])
        assert len(broken) == 2
        if "wanted" not in broken:
            self.add(self.call(call) + (
                f" was called after {other('after')}, whose outcome is unknown: the commands after it in its part are not-run." if "after" in broken else
                f" uses the result of {other('needs')}, which has none: it cannot have been called." if "needs" in broken else
                " has the reply unknown, but `next` of its operation uses `r`: nobody knows the state after it."))
            self.add("The run, with * before this command:")
            return self.run({call["id"]})
        how = {"misfit": "it answered something other than", "failed": "it failed, or its answer is not a value, instead of",
               "not-run": "it was not called, and did not answer"}[call["reply"]["text"]]
        self.add(f"{self.call(call)} has the reply {call['reply']['text']}: {how} a value of type {self.item['broken']['wanted']}.")
        self.add("The run, with * before this command:")
        self.run({call["id"]})


def is_unknown(call):
    """Whether the outcome of a call is unknown."""
    return "reply" in call and call["reply"]["text"] == "unknown"


def counted_calls(item):
    """The calls of each part that an interleaving of a run with unknown outcomes has: those that answered, and except in the suffix an unknown one."""
    answered = lambda call: call["reply"]["text"] not in ("misfit", "failed", "not-run", "unknown")
    return {part: [call for call in item["calls"] if call["part"] == part and (answered(call) or is_unknown(call) and part != "X")] for part in "PLRSTX"}


def next_calls_with_unknown(item, at, is_timed):
    """The calls that may come next when so many of each part are done, in a run with unknown outcomes; none if all that answered are done."""
    counted = counted_calls(item)
    left = {part: calls[at.get(part, 0):] for part, calls in counted.items()}
    known = {part: [call for call in calls if not is_unknown(call)] for part, calls in left.items()}
    if known["P"]:
        return {known["P"][0]["id"]}
    if not any(known.values()):
        return set()
    others = [call for part in "LRST" for call in left[part]]
    found = [left[part][0] for part in "LRST" if left[part] and not (is_timed and any(precedes(other, left[part][0]) for other in others))]
    found += left["P"][:1] + left["X"][:0 if any(known[part] for part in "LRST") else 1]
    return {call["id"] for call in found}


def precedes(earlier, later):
    """Whether a call was answered before another began."""
    return "time" in earlier and "time" in later and earlier["time"][1] is not None and earlier["time"][1] < later["time"][0]


def check_times(item, is_timed):
    """Checks that each branch has times that rise or none, that those of a timed item's interleaving are in order, and what is against another one."""
    calls = {call["id"]: call for call in item["calls"]}
    for letter in "LRST":
        times = [call["time"] for call in calls.values() if call["part"] == letter and "time" in call]
        assert all(call[1] is not None and call[1] <= following[0] for call, following in zip(times, times[1:])), f"branch {letter} has {times}"
    assert not any("time" in call for call in calls.values() if call["part"] in "PX")
    if is_timed and "walk" in item:
        order = [calls[step["call"]] for step in item["walk"]["steps"]]
        left = [call for call in calls.values() if call not in order]
        assert not any(precedes(other, call) for at, call in enumerate(order) for other in [*order[at + 1:], *left]), "the interleaving is not in order of time"
    if "in_time" in item:
        assert is_timed and item["verdict"] in ("unexplained", "fault")
        word, against = item["in_time"]["without"], item["in_time"]["against"]
        order = [f"{letter}{word[:at + 1].count(letter)}" for at, letter in enumerate(word)]
        assert sorted(order) == sorted(call["id"] for call in calls.values() if call["part"] in "LRST"), f"{word} is no interleaving"
        assert all(precedes(calls[each["earlier"]], calls[each["later"]]) for each in against), f"{against} are not in order of time"
        assert any(order.index(each["later"]) < order.index(each["earlier"]) for each in against), f"nothing is against {word}"


def next_calls(item, node, is_timed):
    """The calls that may come next at a node: that of the prefix, or those of the branches that no call that is left precedes, or that of the suffix."""
    at = dict(zip(["P", *"LRST"[:len(item["graph"]["nodes"][node]["at"]) - 2], "X"], item["graph"]["nodes"][node]["at"]))
    if any(map(is_unknown, item["calls"])):
        return next_calls_with_unknown(item, at, is_timed)
    left = [call for call in item["calls"] if call["index"] > at[call["part"]]]
    part = next((part for part in ("P", "LRST", "X") if any(call["part"] in part for call in left)), "")
    return {call["id"] for call in left if call["part"] in part and call["index"] == at[call["part"]] + 1
            and not (is_timed and any(precedes(other, call) for other in left))}


def check_graph(item, is_timed):
    """Checks that the graph of an item has its walk, and that what is tried at each node is what may come next there."""
    graph, walk = item["graph"], item["walk"]
    assert len(graph["nodes"]) == item["search"]["positions"] and len(graph["edges"]) == item["search"]["moves"]
    assert all(("to" in edge) != ("why" in edge) for edge in graph["edges"])
    at, way = 0, []
    for edge in (edge for edge in graph["edges"] if edge.get("on")):
        assert edge["from"] == at
        at = edge["to"]
        way.append([edge["call"], graph["nodes"][at]["state"]])
    assert way == [[step["call"], step["state"]] for step in walk["steps"]] and graph["nodes"][0]["state"] == walk["start"]
    stopped = [edge for edge in graph["edges"] if edge["from"] == at and "why" in edge]
    assert sorted(edge["call"] for edge in stopped) == sorted(each["call"] for each in walk["next"])
    for node in range(len(graph["nodes"])):
        tried = sorted(edge["call"] for edge in graph["edges"] if edge["from"] == node)
        assert tried == sorted(next_calls(item, node, is_timed)), f"at node {node} {tried} are tried"
    if item["kind"] == "run" and item["verdict"] == "unexplained":
        assert not any(sum(node["at"]) == len(item["calls"]) for node in graph["nodes"]), "a way leads to the end"
        assert not any(map(is_unknown, item["calls"])) or all(next_calls(item, node, is_timed) for node in range(len(graph["nodes"]))), "a way leads to the end"


def run(program, words, text):
    ran = subprocess.run([program, "explain", *words], cwd=TOP, input=text, capture_output=True, timeout=120)
    return ran.returncode, ran.stdout


def words_of(text):
    """The lines of a text without what its layout adds, as items."""
    lines = [re.sub(r" {2,}", "   ", line.strip()) for line in text.split("\n")]
    return [item.split("\n") for item in "\n".join(lines).strip("\n").split("\n\n")]


def compare(program, words, text=None):
    """Compares the forms for an input. Returns how many items were compared, and how many of them had lines that are too long."""
    status, document = run(program, [*words, "--format", "json"], text)
    if status > 1:
        assert document.startswith(b"refused "), document[:100]
        return 0, 0
    assert not re.search(rb"[^\n -~]|[<>&]", document), "a byte that may not be in a page"
    _, page = run(program, [*words, "--format", "html"], text)
    assert page.count(document) == 1 and page.startswith(b"<!DOCTYPE html>"), "the page has other JSON"
    lines = document.decode().splitlines()
    document = json.loads(document)
    assert len(lines) == len(document["items"]) + 2
    assert all(json.loads(line.rstrip(",")) == item for line, item in zip(lines[1:], document["items"]))
    check(document, DOCUMENT, "")
    check_values(document)
    again, shown = run(program, [*words, "--width", str(WIDTH)], text)
    assert again == status
    shown = words_of(shown.decode()) if shown else []
    assert len(shown) == len(document["items"])
    long = 0
    for item, got in zip(document["items"], shown):
        assert NEEDED[item["verdict"]] <= set(item), f"item {item['item']} lacks a part"
        is_timed, has_times = "order" in item, any("time" in call for call in item["calls"])
        assert not is_timed if "none" in words else is_timed or not has_times, f"item {item['item']} has another order"
        assert ("orders" in item["search"]) != (is_timed or any(map(is_unknown, item["calls"])))
        check_times(item, is_timed)
        if "graph" in item:
            check_graph(item, is_timed)
        wanted = words_of("\n".join(Text(document, item, is_timed).lines))[0]
        if max(map(len, wanted)) > WIDTH - 10:
            long += 1
        else:
            assert got == wanted, f"item {item['item']}:\n" + "\n".join(got) + "\n-- from the JSON:\n" + "\n".join(wanted)
    return len(shown), long


def changed(text, chance):
    """An input with some answers and arguments changed at random."""
    def other(match):
        word = match.group(0)
        if chance.random() > 0.15:
            return word
        if word in ("true", "false"):
            return chance.choice(["true", "false", "true", "false", "failed"])
        return str(chance.choice([int(word) + 1, int(word) - 1, 0, 1, 2]))
    begin = min((at for at in (text.find("\n(run"), text.find("\n(case")) if at >= 0), default=len(text))
    parts = re.split(r"(\(times(?:\s*\((?:\s*\([^()]*\))*\))*\))", text[begin:])
    return text[:begin] + "".join(part if part.startswith("(times") else re.sub(r'(?<![$\w"-])(-?\d+|true|false)(?![\w"])', other, part) for part in parts)


# A counter whose increments do not answer what it counts, so several of them can stand against one reading.
BLIND = """(model blind (state int) (init 0) (command (list call (call get)))
  (op inc () bool (pre true) (next (+ s 1)) (post r)) (op get () int (pre true) (next s) (post (= r s))))
"""


def timed_branch(chance):
    """Returns the calls of a branch and their times."""
    calls, times, clock = [chance.choice(["(inc)", "(get)"]) for _ in range(chance.randint(0, 3))], [], chance.randint(0, 4)
    for _ in calls:
        began = clock + chance.randint(0, 2)
        clock = began + chance.randint(0, 3)
        times.append(f"({began} {clock})")
    if times and chance.random() < 0.15:
        times[-1] = f"({began} -)"
    return calls, times


def timed_run(chance):
    """Returns a run of the blind counter with times. Some interleaving explains its answers, unless one was changed."""
    branches = [timed_branch(chance) for _ in range(chance.randint(2, 4))]
    order, state, replies = [at for at, (calls, _) in enumerate(branches) for _ in calls], 0, [[] for _ in branches]
    chance.shuffle(order)
    for at in order:
        is_increment = branches[at][0][len(replies[at])] == "(inc)"
        state += is_increment
        replies[at].append("true" if is_increment else state + (chance.random() < 0.1))
    lists = lambda each: " ".join(f"({' '.join(map(str, one))})" for one in each)
    calls, times = zip(*branches)
    return f"(run (prefix) (branches {lists(calls)}) (replies () {lists(replies)}) (times {lists(times)}))"


def unknown_run(chance, has_times):
    """Returns a run of the blind counter in which calls have unknown outcomes. Some of these explain its answers, unless one was changed."""
    count = chance.randint(2, 4)
    parts = [[chance.choice(["inc", "get"]) for _ in range(chance.randint(0, 3))] for _ in range(count + 2)]
    lost = [chance.randint(0, 3) if chance.random() < (0.2 if number == 0 else 0.5) else 9 for number in range(count + 2)]
    order = [0] * len(parts[0]) + chance.sample(flat := [number for number in range(1, count + 1) for _ in parts[number]], len(flat))
    order += [count + 1] * len(parts[-1])
    state, replies, late, times = 0, [[] for _ in parts], 0, [[] for _ in parts]
    for clock, number in enumerate(order):
        place = len(replies[number])
        is_increment = parts[number][place] == "inc"
        if place > lost[number]:
            replies[number].append("not-run")
            continue
        times[number].append((3 * clock, "-" if place == lost[number] else 3 * clock + chance.randint(0, 2)))
        if place == lost[number]:
            replies[number].append("unknown")
            late += is_increment and chance.random() < 0.7
            continue
        landed = chance.randint(0, late)
        state, late = state + is_increment + landed, late - landed
        replies[number].append("true" if is_increment else state - is_increment + (chance.random() < 0.1))
    if chance.random() < 0.05:
        number = chance.choice([number for number, part in enumerate(replies) if part] or [0])
        if replies[number]:
            replies[number][-1] = chance.choice(["unknown", "true", "failed", 0])
            has_times = False
    lists = lambda each: " ".join(f"({' '.join(map(str, one))})" for one in each)
    called = [[f"({name})" for name in part] for part in parts]
    trees = f"(prefix {' '.join(called[0])}) (branches {lists(called[1:-1])}) (suffix {' '.join(called[-1])}) (replies {lists(replies)})"
    return f"(run {trees}" + (f" (times {lists([[f'({one} {two})' for one, two in part] for part in times[1:-1]])})" if has_times else "") + ")"


def unknown_inputs(chance):
    """Returns inputs with unknown outcomes: those of the docs and of the rows, and runs at random."""
    with open(os.path.join(TOP, "crates/pst_rows/data/judge/unknown.rows"), encoding="utf-8") as file:
        rows = file.read()
    inputs = []
    for table in rows.split("\ntable ")[1:]:
        before = re.search(r"^before (.*)$", table, re.M)[1]
        runs = [match[1] for match in re.finditer(r"^(\(run .*\)) => (?!\d+ \d+ )", table, re.M)]
        with open(os.path.join(TOP, f"crates/pst_rows/data/models/{before.strip('{}')}.model") if before.startswith("{") else os.devnull, encoding="utf-8") as file:
            inputs.append((["-"], "\n".join([file.read() or before, *runs])))
    inputs += [(["-"], BLIND + "\n".join(unknown_run(chance, at % 2 == 0) for at in range(10))) for _ in range(100)]
    return [([*more, *words], text.encode()) for words, text in inputs for more in ([], ["--order", "none"])]


def timed_inputs(chance):
    """Returns inputs with times: those of the docs and of the rows, and runs at random."""
    with open(os.path.join(TOP, "docs/explain.md"), encoding="utf-8") as file:
        runs = re.findall(r"^```lisp stale.runs\n(.*?)^```", file.read(), re.M | re.S)
    with open(os.path.join(TOP, "crates/pst_rows/data/judge/times.rows"), encoding="utf-8") as file:
        runs += [match[1] for match in re.finditer(r"^(\(run .*\(times .*\)) => (?!\d+ \d+ )", file.read(), re.M)]
    assert len(runs) > 20
    inputs = [(["examples/counter.model", "-"], text) for text in runs]
    inputs += [(["-"], BLIND + "\n".join(timed_run(chance) for _ in range(10))) for _ in range(100)]
    return [([*more, *words], text.encode()) for words, text in inputs for more in ([], ["--order", "none"])]


def main(program, *files):
    program = os.path.abspath(program)
    inputs = [([name], None) for name in files]
    if not files:
        folder = "crates/pst_rows/data/explained"
        names = sorted(glob.glob(f"{folder}/*.runs", root_dir=TOP) + glob.glob("examples/*.runs", root_dir=TOP))
        inputs = [([*more, name], None) for name in names for more in ([], ["--failures"], ["--item", "2"], ["--max", "1"])]
        inputs.append(([f"{folder}/{name}" for name in ("parts.model", "monday.runs", "tuesday.runs")], None))
        names.append("tests/page/times.runs")
        inputs += [([*more, "tests/page/times.runs"], None) for more in ([], ["--failures"], ["--order", "none"])]
        chance = random.Random(7)
        inputs += timed_inputs(chance) + unknown_inputs(random.Random(8))
        for name in (chance.choice(names) for _ in range(200)):
            with open(os.path.join(TOP, name), encoding="utf-8") as file:
                inputs.append((["-"], changed(re.sub(r"(?m)^;.*\n", "", file.read()), chance).encode()))
    items = long = failed = 0
    for words, text in inputs:
        try:
            more, too_long = compare(program, words, text)
            items, long = items + more, long + too_long
        except AssertionError as error:
            failed += 1
            print(f"{' '.join(words)}: {error}")
            if text:
                print(text.decode())
    print(f"{items} items of {len(inputs)} inputs, {long} of them too long to compare, {failed} failed")
    return 1 if failed or not items else 0


if __name__ == "__main__":
    sys.exit(main(*sys.argv[1:]))
