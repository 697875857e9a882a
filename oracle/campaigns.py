"""Campaigns on the sample system `stuck`, which answers 0 to `inc` and `get` and refuses all other calls."""
from language import Fault
from judging import Answer, Command, Item, commands_of, fault_of, lengths, validity, verdict, within_limits
from trees import Word, spelled
from values import Variable, tree_of_value, variables_in, with_parts

WORD = 2**64 - 1
MULTIPLIER = 0x2360ED051FC65DA44385DF649FCCF645


class Pcg64:
    """The generator `Pcg64` of the crate `rand_pcg`: a linear congruential one of 128 bits, whose output is rotated."""

    def __init__(self, seed, stream):
        self.increment = (stream << 1) | 1
        self.state = seed + self.increment
        self.step()

    def step(self):
        self.state = (self.state * MULTIPLIER + self.increment) % 2**128

    def next_u64(self):
        self.step()
        turns, mixed = self.state >> 122, ((self.state >> 64) ^ self.state) & WORD
        return ((mixed >> turns) | (mixed << (64 - turns))) & WORD


class NoCase(Exception):
    """A callback faults while a case is generated."""


def numbered(parts):
    """The commands of each part with their numbers."""
    number, all_parts = 0, []
    for part in parts:
        all_parts.append([(number + index, command) for index, command in enumerate(part, 1)])
        number += len(part)
    return all_parts


def renumbered(parts):
    """The parts of commands with their old numbers, where each variable names the new place of its command."""
    new = {old: number for number, (old, _) in enumerate(commands_of(parts), 1)}
    change = lambda variable: Variable(new.get(variable.number, variable.number))
    return [[Command(command.operation, tuple(with_parts(argument, change) for argument in command.arguments))
             for _, command in part] for part in parts]


def is_shaped(model, parts):
    owners = [number for number, part in enumerate(parts) for _ in part]
    results = []
    for command in commands_of(parts):
        operation = model.operations[command.operation]
        if fault_of(operation, command.arguments, len(results) + 1, owners, results, len(parts) - 1) is not None:
            return False
        results.append(operation.result)
    return within_limits(lengths(parts))


def is_valid(model, parts):
    return is_shaped(model, parts) and validity(model, parts) == "valid"


# ---- generation


def generated(model, words, plan):
    script = script_of(model, words, plan["commands"])
    word = words.next_u64()
    end = len(script) - min(plan["suffix"], len(script))
    body, suffix = script[:end], script[end:]
    most = 0 if plan["branches"] == 1 else min(16, len(body))
    for count in range(most, -1, -1):
        start = len(body) - count
        branches = [[] for _ in range(max(2, plan["branches"]))]
        for index, command in enumerate(body[start:]):
            branches[branch_of(word, index, plan["branches"])].append(command)
        parts = renumbered([body[:start], *branches, suffix])
        if is_valid(model, parts):
            return parts
    raise AssertionError("a script without branches is valid")


def branch_of(word, index, branches):
    return (word >> index) % 2 if branches == 2 else (word >> (2 * index)) % 4 % branches


def script_of(model, words, most):
    script, number, callback = [], 0, "init"
    try:
        state = model.run(model.single["init"], {})
        for number in range(1, most + 1):
            callback = "command"
            calls = model.run(model.single["command"], {"s": state}).items
            callback = "pre"
            lawful = [call for call in calls if model.run(
                model.operations[call.operation].callbacks["pre"],
                model.operations[call.operation].names(state, call.arguments))]
            if not lawful:
                break
            call = lawful[words.next_u64() % len(lawful)]
            operation, callback = model.operations[call.operation], "next"
            names = {**operation.names(state, call.arguments), "r": Variable(number)}
            state = model.run(operation.callbacks["next"], names)
            script.append((number, Command(*call)))
    except Fault as fault:
        raise NoCase(f"{number} {callback} {fault}") from None
    return script


# ---- driving and shrinking


def driven(model, parts):
    """What `stuck` answers to each part: an Answer, or the word of a reply that is no value."""
    prefix, *branches, suffix = parts
    history = [part_driven(model, prefix, True)]
    may_go_on = is_answered(history)
    history += [part_driven(model, branch, may_go_on) for branch in branches]
    return [*history, part_driven(model, suffix, is_answered(history))]


def is_answered(history):
    return all(isinstance(reply, Answer) for part in history for reply in part)


def part_driven(model, part, may_run):
    replies = []
    for command in part:
        operation = model.operations[command.operation]
        if not may_run:
            replies.append(Word("not-run"))
        elif operation.name not in ("inc", "get") or command.arguments:
            replies.append(Word("failed"))
        else:
            replies.append(Answer(0) if operation.result == "int" else Word("misfit"))
        may_run = may_run and isinstance(replies[-1], Answer)
    return replies


def run_of(model, parts):
    """The history of a drive, and the verdict on it."""
    history = driven(model, parts)
    replies = [reply if isinstance(reply, Answer) else None for part in history for reply in part]
    return parts, history, verdict(model, Item(parts, replies, None))


def candidates(parts):
    used = {number for command in commands_of(parts) for value in command.arguments for number in variables_in(value)}
    all_parts = numbered(parts)
    for number, _ in commands_of(all_parts):
        if number not in used:
            yield renumbered([[one for one in part if one[0] != number] for part in all_parts])
    prefix, *others = all_parts
    for branch in range(len(others) - 1):
        if others[branch]:
            first, *rest = others[branch]
            yield renumbered([[*prefix, first], *others[:branch], rest, *others[branch + 1:]])


def shrunk(model, run, limit):
    """The last run that fails, how many cases were taken, and how the shrinking ended."""
    taken = tried = 0
    while True:
        following = None
        for parts in candidates(run[0]):
            if tried == limit:
                return run, taken, "stopped"
            if is_valid(model, parts):
                tried += 1
                following = run_of(model, parts)
                if not following[2].startswith("explained"):
                    break
                following = None
        if following is None:
            return run, taken, "minimal"
        run, taken = following, taken + 1


# ---- the report


def run_text(model, parts, history):
    command = lambda one: [Word(model.operations[one.operation].name), *map(tree_of_value, one.arguments)]
    reply = lambda one: tree_of_value(one.value) if isinstance(one, Answer) else one
    prefix, *branches, suffix = [[command(one) for one in part] for part in parts]
    replies = [[reply(one) for one in part] for part in history]
    tree = [Word("run"), [Word("prefix"), *prefix]]
    if len(branches) == 2:
        tree += [[Word("left"), *branches[0]], [Word("right"), *branches[1]]]
    else:
        tree += [[Word("branches"), *branches]]
    tree += [[Word("suffix"), *suffix]] if suffix else []
    return spelled([*tree, [Word("replies"), *(replies if suffix else replies[:-1])]])


def report(model, plan):
    counts = {"explained": 0, "unexplained": 0, "fault": 0, "broken": 0}
    no_cases, least = [], None
    for number in range(plan["trials"]):
        try:
            run = run_of(model, generated(model, Pcg64(plan["seed"], number), plan))
        except NoCase as fault:
            no_cases.append(f"{number} {fault}")
            continue
        kind = run[2].split()[0]
        counts[kind] += 1
        if kind != "explained" and least is None:
            least = (number, run, *shrunk(model, run, plan["limit"]))
    text = f"campaign {model.name}\nseed {plan['seed']} trials {plan['trials']} commands {plan['commands']}"
    text += f" repeats {plan['repeats']} limit {plan['limit']}"
    text += f" branches {plan['branches']}" if plan["branches"] != 2 else ""
    text += f" suffix {plan['suffix']}" if plan["suffix"] != 0 else ""
    text += f"\npassed {counts['explained']}\nunexplained {counts['unexplained']}\nfaulted {counts['fault']}"
    text += f"\nbroken {counts['broken']}\ngenfault {len(no_cases)}\n"
    text += f"genfault-first {no_cases[0]}\n" if no_cases else ""
    text += "lost 0\nundrawn 0\n"
    if least is None:
        return text + "least none\n"
    number, (parts, history, verdict_on), last, taken, ending = least
    text += f"least {number} {verdict_on}\nfrom {run_text(model, parts, history)}\nsteps {taken} {ending}\n"
    return text + f"to {run_text(model, last[0], last[1])}\n{last[2]}\n"
