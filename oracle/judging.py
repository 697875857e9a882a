"""Cases and recorded runs: how they are read, and the verdict on them, by a walk along every interleaving."""
import functools
from collections import namedtuple

from language import Fault
from trees import Word, is_headed
from values import NoValue, Reference, Variable, fits, value_of_tree, variables_in, with_parts

# A command: the number of its operation and its arguments.
Command = namedtuple("Command", "operation arguments")
# The parts are the prefix, the branches and the suffix. `replies` has the answer of each command, or the word of a reply
# that is no value; it is None itself where nothing is recorded. `times` has the times of the calls of each branch, or is
# None.
Item = namedtuple("Item", "parts replies times")
Answer = namedtuple("Answer", "value")
# When a call was invoked, and when it completed, or None.
Time = namedtuple("Time", "invoked completed")
BRANCHES = "LRST"
LETTERS = BRANCHES + "P."
NO_VALUES = ("misfit", "failed", "not-run", "unknown")


class Refused(Exception):
    def __init__(self, command, kind):
        super().__init__(command, kind)
        self.command, self.kind = command, kind


def lengths(parts):
    return [len(part) for part in parts]


def commands_of(parts):
    return [command for part in parts for command in part]


# ---- reading


def read_item(model, tree):
    parts, replies, times = parts_of_item(tree)
    for part in parts:
        if any(not isinstance(one, list) or one == [] or not isinstance(one[0], Word) for one in part):
            raise Refused(0, "BadForm")
    if any(not isinstance(part, list) for part in [*(replies or []), *(times or [])]):
        raise Refused(0, "BadForm")
    if not within_limits(lengths(parts)):
        raise Refused(0, "OverLimit")
    commands = read_commands(model, parts)
    if replies is None:
        return Item(commands, None, None)
    if lengths(replies) != lengths(parts):
        raise Refused(0, "NotAFit")
    answers = read_replies(model, commands_of(commands), commands_of(replies))
    return Item(commands, answers, None if times is None else read_times(replies, times))


def parts_of_item(tree):
    """The trees of the commands of each part, and those of the replies and of the times, if the item is a run that has them."""
    if not is_headed(tree, "case") and not is_headed(tree, "run"):
        raise Refused(0, "BadForm")
    rest, replies, times = tree[1:], None, None
    if is_headed(tree, "run"):
        if rest and is_headed(rest[-1], "times"):
            times = rest.pop()[1:]
        if not rest or not is_headed(rest[-1], "replies"):
            raise Refused(0, "BadForm")
        replies = rest.pop()[1:]
    if not rest or not is_headed(rest[0], "prefix"):
        raise Refused(0, "BadForm")
    prefix, *rest = rest
    has_suffix = rest != [] and is_headed(rest[-1], "suffix")
    suffix = rest.pop()[1:] if has_suffix else []
    if len(rest) == 2 and is_headed(rest[0], "left") and is_headed(rest[1], "right"):
        branches = [branch[1:] for branch in rest]
    elif len(rest) == 1 and is_headed(rest[0], "branches") and 2 <= len(rest[0]) - 1 <= 4:
        branches = rest[0][1:]
    else:
        raise Refused(0, "BadForm")
    if any(not isinstance(branch, list) for branch in branches):
        raise Refused(0, "BadForm")
    parts = [prefix[1:], *branches, suffix]
    if replies is not None:
        if len(replies) != len(parts) - (not has_suffix):
            raise Refused(0, "BadForm")
        replies += [] if has_suffix else [[]]
    if times is not None and len(times) != len(branches):
        raise Refused(0, "BadForm")
    return parts, replies, times


def within_limits(counts):
    prefix, *branches, suffix = counts
    return prefix <= 64 and max(branches) <= 8 and sum(branches) <= 16 and suffix <= 8


def read_commands(model, parts):
    owners = [number for number, part in enumerate(parts) for _ in part]
    results, read = [], []
    for part in parts:
        read.append([])
        for tree in part:
            read[-1].append(read_command(model, tree, owners, results, len(parts) - 1))
            results.append(model.operations[read[-1][-1].operation].result)
    return read


def read_command(model, tree, owners, results, suffix):
    own = len(results) + 1
    if tree[0] not in model.numbers:
        raise Refused(own, "UnknownOp")
    number = model.numbers[tree[0]]
    arguments, all_are_values = [], True
    for argument in tree[1:]:
        try:
            arguments.append(value_of_tree(argument, model.has_maps, True))
        except NoValue:
            all_are_values = False
    fault = fault_of(model.operations[number], arguments, own, owners, results, suffix)
    if fault is None and not all_are_values:
        fault = "BadArgument"
    if fault is not None:
        raise Refused(own, fault)
    return Command(number, tuple(arguments))


def fault_of(operation, arguments, own, owners, results, suffix):
    """The first fault of a command's arguments that are values, if they have one."""
    used = [number for argument in arguments for number in variables_in(argument)]
    if any(number == 0 or number >= own for number in used):
        return "ForwardVar"
    if owners[own - 1] != suffix and any(owners[number - 1] not in (0, owners[own - 1]) for number in used):
        return "CrossVar"
    kinds = [kind for _, kind in operation.params]
    fit = len(arguments) <= len(kinds) and all(fits(value, kind, results) for value, kind in zip(arguments, kinds))
    return None if fit and len(arguments) == len(kinds) else "BadArgument"


def read_replies(model, commands, trees):
    replies = []
    for number, (command, tree) in enumerate(zip(commands, trees), 1):
        if isinstance(tree, Word) and tree in NO_VALUES:
            replies.append(str(tree))
            continue
        try:
            value = value_of_tree(tree, model.has_maps, False)
        except NoValue:
            raise Refused(number, "BadReply") from None
        is_fit = fits(value, model.operations[command.operation].result, [])
        replies.append(Answer(value) if is_fit else "misfit")
    return replies


def read_times(replies, lists):
    """The times of the calls of each branch. A call has a time if its reply is not `not-run`, and one of unknown outcome has no completion."""
    is_word = lambda reply, word: isinstance(reply, Word) and reply == word
    kinds = [[(not is_word(reply, "not-run"), is_word(reply, "unknown")) for reply in part] for part in replies]
    if any(len(trees) != sum(is_called for is_called, _ in part) for part, trees in zip(kinds[1:-1], lists)):
        raise Refused(0, "BadTimes")
    times, number = [], len(kinds[0])
    for part, trees in zip(kinds[1:-1], lists):
        times.append([])
        trees = iter(trees)
        for is_called, is_unknown in part:
            number += 1
            if is_called:
                times[-1].append(read_time(number, next(trees), times[-1], is_unknown))
    return times


def read_time(number, tree, before, is_unknown):
    is_pair = isinstance(tree, list) and len(tree) == 2 and all(isinstance(word, Word) for word in tree)
    if not is_pair or not is_instant(tree[0]) or not (tree[1] == "-" or is_instant(tree[1])):
        raise Refused(number, "BadTimes")
    time = Time(int(tree[0]), None if tree[1] == "-" else int(tree[1]))
    is_over = not before or before[-1].completed is not None and before[-1].completed <= time.invoked
    if not is_over or time.completed is not None and (is_unknown or time.completed < time.invoked):
        raise Refused(number, "BadTimes")
    return time


def is_instant(word):
    """Whether a word is a number of 64 bits in its shortest form."""
    is_decimal = all(digit in "0123456789" for digit in word) and (word == "0" or not word.startswith("0"))
    return word != "" and is_decimal and int(word) < 1 << 64


# ---- interleavings


@functools.lru_cache(maxsize=None)
def merges(counts):
    """The interleavings of branches with so many commands each, as tuples of branch numbers, in their order."""
    if sum(counts) == 0:
        return ((),)
    found = []
    for branch, count in enumerate(counts):
        if count > 0:
            fewer = (*counts[:branch], count - 1, *counts[branch + 1:])
            found += [(branch, *merge) for merge in merges(fewer)]
    return tuple(found)


def merges_of(parts):
    return merges(tuple(lengths(parts)[1:-1]))


@functools.lru_cache(maxsize=None)
def places_of_calls(counts):
    """For each interleaving the place of each call in it, by the call's branch and index."""
    found = []
    for merge in merges(counts):
        places = [[] for _ in counts]
        for place, branch in enumerate(merge):
            places[branch].append(place)
        found.append(places)
    return found


def precedences(times):
    """The pairs of calls of which the first completed before the second was invoked; a call is its branch and index."""
    calls = [((branch, index), time) for branch, part in enumerate(times) for index, time in enumerate(part)]
    over = [(call, time.completed) for call, time in calls if time.completed is not None]
    return [(call, other) for call, completed in over for other, time in calls if completed < time.invoked]


def merges_in_time(item):
    """The interleavings in which no call is before one that completed before it was invoked; all, if there are no times."""
    return merges_of(item.parts) if item.times is None else merges_keeping(item.parts, precedences(item.times))


def merges_keeping(parts, pairs):
    """The interleavings in which the first call of each pair is before the second."""
    counts = tuple(lengths(parts)[1:-1])
    pairs = [(*one, *other) for one, other in pairs]
    for merge, places in zip(merges(counts), places_of_calls(counts)):
        if all(places[one][index] < places[other][other_index] for one, index, other, other_index in pairs):
            yield merge


def spelled(merge):
    return "".join(LETTERS[branch] for branch in merge) or "-"


def order_of(parts, merge):
    """The indices of the commands as they come along a merge: those of the prefix, of the merge, and of the suffix."""
    prefix, *branches, suffix = lengths(parts)
    places, first = [], prefix
    for count in branches:
        places.append(first)
        first += count
    order = list(range(prefix))
    for branch in merge:
        order.append(places[branch])
        places[branch] += 1
    return order + list(range(first, first + suffix))


# ---- verdicts


def judged(model, item):
    return validity(model, item.parts) if item.replies is None else verdict(model, item)


def validity(model, parts):
    try:
        start = model.run(model.single["init"], {})
    except Fault as fault:
        return f"casefault 0 init {fault} merge {spelled(merges_of(parts)[0])}"
    for merge in merges_of(parts):
        why = why_not_valid(model, parts, start, merge)
        if why is not None:
            return f"{why} merge {spelled(merge)}"
    return "valid"


def why_not_valid(model, parts, state, merge):
    commands = commands_of(parts)
    for index in order_of(parts, merge):
        operation = model.operations[commands[index].operation]
        names = operation.names(state, commands[index].arguments)
        callback = "pre"
        try:
            if not model.run(operation.callbacks["pre"], names):
                return f"prefalse {index + 1}"
            callback = "next"
            state = model.run(operation.callbacks["next"], {**names, "r": Variable(index + 1)})
        except Fault as fault:
            return f"casefault {index + 1} {callback} {fault}"
    return None


def verdict(model, item):
    parts, replies = item.parts, item.replies
    if "unknown" in replies:
        return verdict_with_unknown(model, item)
    for number, reply in enumerate(replies, 1):
        if not isinstance(reply, Answer):
            return f"broken {number}"
    try:
        start = model.run(model.single["init"], {})
    except Fault as fault:
        return f"fault 0 init {fault}"
    first_fault, far, replays = None, -1, Replays(model, parts, replies, start)
    for merge in merges_in_time(item):
        fault, true_events, is_true = replays.replay(merge)
        if is_true:
            return f"explained {spelled(merge)}"
        if fault is None:
            far = max(far, true_events)
        first_fault = first_fault or fault
    return first_fault or f"unexplained far {far}"


class Replays:
    """Replays of one interleaving after another. The events with which the one before began are not replayed again."""

    def __init__(self, model, parts, replies, start):
        self.model, self.parts, self.commands, self.replies = model, parts, commands_of(parts), replies
        # The last order that was replayed, the initial state with those after its true events, and what came of it.
        self.order, self.states, self.result = [], [start], None

    def replay(self, merge):
        """The fault of a merge, if it faults; how many of its events are true before that or a false one; and whether all are."""
        order = order_of(self.parts, merge)
        shared = next((place for place, pair in enumerate(zip(order, self.order)) if pair[0] != pair[1]), len(self.order))
        self.order = order
        if self.result is None or shared < len(self.states):
            del self.states[shared + 1:]
            self.result = self.replayed()
        return self.result

    def replayed(self):
        """Replays what comes after the events of the kept states."""
        for index in self.order[len(self.states) - 1:]:
            callback = "post"
            try:
                names, operation = self.names(index), self.model.operations[self.commands[index].operation]
                if not self.model.run(operation.callbacks["post"], {**names, "r": self.replies[index].value}):
                    return None, len(self.states) - 1, False
                callback = "next"
                result = Reference(index + 1, self.replies[index].value)
                self.states.append(self.model.run(operation.callbacks["next"], {**names, "r": result}))
            except Fault as fault:
                return f"fault {index + 1} {callback} {fault}", len(self.states) - 1, False
        return None, len(self.states) - 1, True

    def names(self, index):
        """The names of a command's operation on the last state."""
        recorded = lambda variable: Reference(variable.number, self.replies[variable.number - 1].value)
        arguments = [with_parts(argument, recorded) for argument in self.commands[index].arguments]
        return self.model.operations[self.commands[index].operation].names(self.states[-1], arguments)


# ---- calls of unknown outcome


def broken_command(model, item):
    """The number of the first broken command of a run in which some call has an unknown outcome, if there is one."""
    replies, number = item.replies, 0
    missing = {place for place, reply in enumerate(replies, 1) if not isinstance(reply, Answer)}
    for part in item.parts:
        ended = False
        for command in part:
            number += 1
            reply = replies[number - 1]
            needs = any(one in missing for argument in command.arguments for one in variables_in(argument))
            names_result = "r" in names_in(model.operations[command.operation].callbacks["next"])
            if reply in ("misfit", "failed") or isinstance(reply, Answer) and (ended or needs):
                return number
            if reply == "unknown" and (ended or needs or names_result):
                return number
            ended = ended or reply == "unknown"
    return None


def names_in(tree):
    """The words of an expression that may be names."""
    if isinstance(tree, list):
        return {name for part in tree for name in names_in(part)}
    return {str(tree)} if isinstance(tree, Word) else set()


def columns_of(item):
    """The calls of four branches, of the prefix where its outcome is unknown, and of the suffix: indices of commands."""
    known, unknown, first = [], [], 0
    for part in item.parts:
        places = range(first, first + len(part))
        known.append([place for place in places if isinstance(item.replies[place], Answer)])
        unknown.append([place for place in places if item.replies[place] == "unknown"])
        first += len(part)
    branches = [one + other for one, other in zip(known[1:-1], unknown[1:-1])]
    return known[0], branches + [[]] * (4 - len(branches)) + [unknown[0], known[-1]]


def times_of_calls(item, columns):
    """The time of each call of a branch, by the index of its command."""
    times = {}
    for column, own in zip(columns, item.times or []):
        times.update(zip(column, own))
    return times


def verdict_with_unknown(model, item):
    """By the definition: along each order of the calls with values and of some of those of unknown outcome, each of which is
    before a call with a value."""
    broken = broken_command(model, item)
    if broken is not None:
        return f"broken {broken}"
    try:
        state = model.run(model.single["init"], {})
    except Fault as fault:
        return f"fault 0 init {fault}"
    prefix, columns = columns_of(item)
    outcomes = Outcomes(model, item, state)
    done, fault = outcomes.end(prefix)
    if done < len(prefix):
        return fault or f"unexplained far {done}"
    explaining, faulting, far = [], [], -1
    for word, whole in words_of_calls(item, columns):
        calls = prefix + calls_along(columns, word)
        done, fault = outcomes.end(calls)
        if done == len(calls):
            explaining.append((whole, word))
        elif fault is not None:
            faulting.append((whole, fault))
        else:
            far = max(far, done)
    if explaining:
        return f"explained {spelled(min(explaining)[1])}"
    return min(faulting)[1] if faulting else f"unexplained far {far}"


def words_of_calls(item, columns):
    """The words of calls that end with one that has a value, and each with the letters of the calls after it that took no
    effect."""
    is_known = [[isinstance(item.replies[place], Answer) for place in column] for column in columns]
    unknown = [number for number, column in enumerate(is_known) if False in column]
    for chosen in range(1 << len(unknown)):
        left_out = tuple(number for bit, number in enumerate(unknown) if not chosen >> bit & 1)
        counts = [len(column) - (number in left_out) for number, column in enumerate(columns)]
        for word in words_in_order(item, columns, counts):
            if not word or is_known[word[-1]][counts[word[-1]] - 1]:
                yield word, word + left_out


def words_in_order(item, columns, counts):
    """The words with so many calls of each column in which the suffix comes after the calls of branches that have values, and
    no call before one that precedes it in time."""
    known = [sum(isinstance(item.replies[place], Answer) for place in column) for column in columns[:4]]
    times = times_of_calls(item, columns)

    def precedes(one, other):
        return one in times and other in times and times[one].completed is not None and times[one].completed < times[other].invoked

    def is_open(letter, done):
        if letter == 5 and any(reached < count for reached, count in zip(done, known)):
            return False
        call = columns[letter][done[letter]]
        left = [other for column, first, count in zip(columns, done, counts) for other in column[first:count]]
        return not any(precedes(other, call) for other in left)

    def words(done, word):
        if done == counts:
            yield word
        for letter, (reached, count) in enumerate(zip(done, counts)):
            if reached < count and is_open(letter, done):
                yield from words([*done[:letter], reached + 1, *done[letter + 1:]], (*word, letter))

    return words([0] * len(counts), ())


def calls_along(columns, word):
    done, calls = [0] * len(columns), []
    for letter in word:
        calls.append(columns[letter][done[letter]])
        done[letter] += 1
    return calls


class Outcomes:
    """What becomes of calls in an order, each order evaluated once."""

    def __init__(self, model, item, state):
        self.model, self.commands, self.replies = model, commands_of(item.parts), item.replies
        self.known = {(): (state, None)}

    def end(self, calls):
        """How many calls come before one that is false, or faults; and the fault, if it has a value."""
        state, fault, before = self.known[()][0], None, ()
        for done, index in enumerate(calls):
            before = (*before, index)
            if before not in self.known:
                self.known[before] = self.step(state, index)
            state, fault = self.known[before]
            if state is None:
                return done, fault
        return len(calls), None

    def step(self, state, index):
        """The state after a call, or None; and the fault, if the call has a value and faults."""
        operation, reply = self.model.operations[self.commands[index].operation], self.replies[index]
        recorded = lambda variable: Reference(variable.number, self.replies[variable.number - 1].value)
        names = operation.names(state, [with_parts(argument, recorded) for argument in self.commands[index].arguments])
        callback = "post"
        try:
            if reply == "unknown":
                return self.model.run(operation.callbacks["next"], {**names, "r": Variable(index + 1)}), None
            if not self.model.run(operation.callbacks["post"], {**names, "r": reply.value}):
                return None, None
            callback = "next"
            return self.model.run(operation.callbacks["next"], {**names, "r": Reference(index + 1, reply.value)}), None
        except Fault as fault:
            return None, None if reply == "unknown" else f"fault {index + 1} {callback} {fault}"


def lines(model, trees, in_time=True):
    """What `pst judge` prints of the items; or `pst judge --order none`, which leaves times aside."""
    text = ""
    for number, tree in enumerate(trees, 1):
        try:
            item = read_item(model, tree)
            text += f"{number} {judged(model, item if in_time else item._replace(times=None))}\n"
        except Refused as refused:
            return f"refused run {number} command {refused.command} {refused.kind}\n"
    return text
