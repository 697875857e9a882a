"""Random runs with times that an interleaving in order of time explains, and the same with one answer or the times changed."""
import pathlib
from collections import namedtuple

from inputs import Inputs
from judging import Answer, Command, Item, Time, commands_of, merges, order_of
from language import Fault, RememberingModel
from trees import Text, Word, read, spelled
from values import Reference, tree_of_value, variables_in, with_parts

EXAMPLES = pathlib.Path(__file__).resolve().parent.parent / "examples"
LOG = """(model log (state (list int)) (init (list int)) (command (list call (call add 1) (call all) (call near)))
  (op add ((x int)) int (pre true) (next (++ s (list int x))) (post (= r (len s))))
  (op all () (list int) (pre true) (next s) (post (= s r)))
  (op near () int (pre true) (next s) (post (and (<= r (len s)) (<= (- (len s) 1) r)))))
"""
SHARES = """(model shares (state int) (init 1) (command (list call (call set 1) (call share) (call halve)))
  (op set ((x int)) int (pre (< s 2)) (next x) (post (and (<= 0 r) (<= r 1))))
  (op share () int (pre true) (next s) (post (= r (div 12 s))))
  (op halve () int (pre true) (next (div 6 (* 2 s))) (post (= s r))))
"""
TRIES, TRUE = 12, Word("true")


class NoRun(Exception):
    """No run of a model was found."""


class Run(namedtuple("Run", "commands has_suffix answers merge times")):
    """A run: the commands of each part, whether there is a suffix, the answers of all commands, the interleaving that gave them,
    and the times of the calls of each branch."""

    def item(self):
        return Item(self.commands, [Answer(value) for value in self.answers], self.times)


def example_models():
    names = ["counter", "queue", "store", "cache", "replica", "registry"]
    return [LOG, SHARES, SHARES] + [(EXAMPLES / f"{name}.model").read_text() for name in names]


class TimedRuns(Inputs):
    """Makes runs over one model: half of the models are random, half are those of a counter, a queue, a store and so on."""

    examples = example_models()

    def __init__(self, random, most_words=1_000, most_turns=3_000):
        """`most_words` bounds the interleavings of a run, and `most_turns` the turns of all callbacks along one."""
        super().__init__(random)
        self.most_words, self.most_turns = most_words, most_turns
        self.mistakes = self.absent = 0.0
        self.is_example = self.chance(0.5)
        self.source = random.choice(self.examples) if self.is_example else self.model()
        self.of = RememberingModel(read(self.source)[0])
        self.is_typed = self.of.first_ill_typed() is None

    def value(self, kind, variables=()):
        """A value of the type; of the models that are no random ones with few numbers and texts, so that calls meet."""
        if self.is_example and kind == "int":
            return self.random.randint(0, 2)
        if self.is_example and kind == "text":
            return Text(self.random.choice("ab"))
        return super().value(kind, variables)

    # -- runs

    def explained_run(self):
        """A run that its interleaving explains in order of time, after at most some tries."""
        for _ in range(TRIES if self.is_typed else 0):
            taken = self.of.turns_taken
            try:
                run = self.run_by_construction()
            except (NoRun, Fault):
                continue
            if self.of.turns_taken - taken <= self.most_turns:
                return run
        raise NoRun

    def run_by_construction(self):
        random = self.random
        count = random.choice([2, 2, 2, 3, 3, 4])
        most = {2: 4, 3: 3, 4: 2}[count]
        counts = [random.choice([0, 0, 1, 2])] + [random.randint(0, most) for _ in range(count)]
        counts.append(random.choice([0, 0, 0, 1, 2]))
        if len(merges(tuple(counts[1:-1]))) > self.most_words:
            raise NoRun
        parts = self.commands(self.of, counts, 0.0)
        commands = [[Command(self.of.numbers[one.name], tuple(arguments)) for one, arguments in part] for part in parts]
        if any(number == 0 or number >= own for own, command in enumerate(commands_of(commands), 1)
               for value in command.arguments for number in variables_in(value)):
            raise NoRun
        merge = [branch for branch, count in enumerate(counts[1:-1]) for _ in range(count)]
        random.shuffle(merge)
        answers = self.answers_along(commands, merge)
        return Run(commands, counts[-1] > 0, answers, merge, self.times_around(merge, len(counts) - 2))

    def answers_along(self, parts, merge):
        """Answers that are right along an interleaving."""
        commands = commands_of(parts)
        answers = [None] * len(commands)
        recorded = lambda variable: Reference(variable.number, answers[variable.number - 1])
        state = self.of.run(self.of.single["init"], {})
        for index in order_of(parts, merge):
            operation = self.of.operations[commands[index].operation]
            names = operation.names(state, [with_parts(one, recorded) for one in commands[index].arguments])
            answers[index] = self.right_answer(operation, names)
            state = self.of.run(operation.callbacks["next"], {**names, "r": Reference(index + 1, answers[index])})
        return answers

    def right_answer(self, operation, names):
        post = operation.callbacks["post"]
        wanted = wanted_answer(post)
        if wanted is not None:
            return self.of.run(wanted, names)
        for _ in range(TRIES):
            answer = self.value(operation.result)
            if self.of.run(post, {**names, "r": answer}):
                return answer
        raise NoRun

    def with_one_answer_changed(self, run):
        """The run with another answer of one command, or None if no other was found."""
        kinds = [self.of.operations[command.operation].result for command in commands_of(run.commands)]
        if not kinds:
            return None
        index = self.random.randrange(len(kinds))
        others = [answer for kind, answer in zip(kinds, run.answers) if kind == kinds[index]]
        for _ in range(TRIES):
            answer = self.random.choice(others) if self.chance(0.6) else self.value(kinds[index])
            if answer != run.answers[index]:
                return run._replace(answers=[*run.answers[:index], answer, *run.answers[index + 1:]])
        return None

    def with_times_around(self, run, merge):
        return run._replace(times=self.times_around(merge, len(run.times)))

    # -- times

    def times_around(self, merge, branches):
        """Times in whose order the interleaving is: each call has its place in it between its invocation and completion."""
        width, unit = self.random.choice([0, 2, 5, 9, 30]), self.random.choice([1, 1, 2, 4])
        times = [[] for _ in range(branches)]
        for place, branch in enumerate(merge):
            at = 4 * place + 4
            last = min(times[branch][-1][1], at) if times[branch] else 0
            if times[branch]:
                times[branch][-1][1] = last
            begun = max(last, at - self.random.randint(0, width))
            times[branch].append([begun, at + self.random.randint(0, width)])
        return [[self.time(unit, part, index) for index in range(len(part))] for part in times]

    def time(self, unit, part, index):
        """The time of a call in larger units; nobody knows that some last calls of a branch completed."""
        invoked, completed = (number // unit for number in part[index])
        is_open = index == len(part) - 1 and self.chance(0.1)
        return Time(invoked, None if is_open else completed)

    # -- the text of a run

    def text(self, run):
        pairs = [[(self.of.operations[one.operation], one.arguments) for one in part] for part in run.commands]
        trees = self.item_trees(self.of, pairs, run.has_suffix)
        answers, replies = iter(run.answers), []
        for part in run.commands if run.has_suffix else run.commands[:-1]:
            replies.append([tree_of_value(next(answers)) for _ in part])
        word = lambda number: Word("-" if number is None else number)
        times = [[list(map(word, time)) for time in part] for part in run.times]
        return spelled([Word("run"), *trees, [Word("replies"), *replies], [Word("times"), *times]])


def wanted_answer(post):
    """The expression whose value is the one right answer, if the form of the postcondition says so."""
    if post == "r" and isinstance(post, Word):
        return TRUE
    if not isinstance(post, list) or post[0] != "=":
        return None
    sides = [other for one, other in (post[1:], post[:0:-1]) if one == "r" and isinstance(one, Word) and not names_reply(other)]
    return sides[0] if sides else None


def names_reply(tree):
    return any(map(names_reply, tree)) if isinstance(tree, list) else isinstance(tree, Word) and tree == "r"
