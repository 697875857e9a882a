"""Every interleaving of a run with its states, whatever was answered."""
from collections import namedtuple

from judging import commands_of, merges_in_time, merges_of, order_of
from language import Fault
from values import Reference, with_parts

# The states are those before each event and after the last one, as far as no callback faults; the postcondition of each
# event that has a state before it is True, False or the name of a fault; the fault is that of `init` or of a `next`.
Walk = namedtuple("Walk", "word order states posts fault")


class Walks:
    """The interleavings of a run, with a walk along each."""

    def __init__(self, model, item):
        self.model, self.item, self.commands = model, item, commands_of(item.parts)
        self.after, self.right = {}, {}
        self.all = [self.walk(word) for word in merges_of(item.parts)]
        in_time = set(merges_in_time(item))
        self.in_time = [walk for walk in self.all if walk.word in in_time]

    def names(self, state, index):
        """The names of a command's operation on a state, without its result."""
        recorded = lambda variable: Reference(variable.number, self.item.replies[variable.number - 1].value)
        arguments = [with_parts(argument, recorded) for argument in self.commands[index].arguments]
        return self.operation(index).names(state, arguments)

    def operation(self, index):
        return self.model.operations[self.commands[index].operation]

    def answer(self, index):
        return self.item.replies[index].value

    def post(self, state, index, answer):
        """Whether a command's postcondition is true of an answer, or the fault in which it ends."""
        try:
            return self.model.run(self.operation(index).callbacks["post"], {**self.names(state, index), "r": answer})
        except Fault as fault:
            return str(fault)

    def pre(self, state, index):
        """Whether a command's precondition is true, or the fault in which it ends."""
        try:
            return self.model.run(self.operation(index).callbacks["pre"], self.names(state, index))
        except Fault as fault:
            return str(fault)

    def state_after(self, order):
        """The state after these commands, or a Fault."""
        if order not in self.after:
            try:
                self.after[order] = self.next_state(order)
            except Fault as fault:
                self.after[order] = fault
        return self.after[order]

    def next_state(self, order):
        if not order:
            return self.model.run(self.model.single["init"], {})
        state = self.state_after(order[:-1])
        if isinstance(state, Fault):
            return state
        result = Reference(order[-1] + 1, self.answer(order[-1]))
        return self.model.run(self.operation(order[-1]).callbacks["next"], {**self.names(state, order[-1]), "r": result})

    def post_after(self, order, index):
        if (order, index) not in self.right:
            self.right[order, index] = self.post(self.state_after(order), index, self.answer(index))
        return self.right[order, index]

    def walk(self, word):
        order, states, posts = tuple(order_of(self.item.parts, word)), [], []
        for place in range(len(order) + 1):
            state = self.state_after(order[:place])
            if isinstance(state, Fault):
                return Walk(word, order, states, posts, str(state))
            states.append(state)
            if place < len(order):
                posts.append(self.post_after(order[:place], order[place]))
        return Walk(word, order, states, posts, None)


def right_commands(walk):
    """The indices of the commands whose postconditions are true along a walk, or None if `init` or a `next` faults."""
    if walk.fault is not None:
        return None
    return frozenset(index for index, right in zip(walk.order, walk.posts) if right is True)


def end_of(walk):
    """How many events are true before one is not, and why that is not: None, `false`, or a callback with its fault."""
    if not walk.states:
        return 0, f"init {walk.fault}"
    for place, right in enumerate(walk.posts):
        if right is not True:
            return place, "false" if right is False else f"post {right}"
        if place + 1 == len(walk.states):
            return place, f"next {walk.fault}"
    return len(walk.posts), None


def explains(walk):
    return end_of(walk)[1] is None
