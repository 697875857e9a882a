"""Random models and items."""
from judging import order_of
from language import Fault, Model
from trees import Text, Word, read, spelled
from values import GREATEST, LEAST, List, Map, Reference, Tuple, Variable, parts_of, tree_of_value, variables_in, with_parts

INTEGERS = [0, 0, 1, 1, 2, 3, -1, 7, GREATEST, LEAST]
TEXTS = ["", "a", "b", "ab", 'z "', "\\"]
KEYS = {"int": [-1, 0, 1, 2], "bool": [False, True], "text": [Text("a"), Text("b"), Text("c")]}
ANY_ITEM = 10**9


def type_text(kind):
    if isinstance(kind, str):
        return kind
    parts = kind[1] if kind[0] == "tuple" else kind[1:]
    return f"({' '.join([kind[0], *map(type_text, parts)])})"


def form(*parts):
    return f"({' '.join(parts)})"


class Inputs:
    """Makes one model and items for it, from a source of random numbers."""

    def __init__(self, random):
        self.random = random
        self.has_maps = random.random() < 0.6
        # How often a part has another type than the one that is wanted.
        self.mistakes = 0.01 if random.random() < 0.15 else 0.0
        # How often a command names no operation.
        self.absent = 0.001
        # How often a run has calls of unknown outcome.
        self.unknowns = 0.4
        self.operations, self.functions, self.answers, self.names = [], [], {}, 0

    def chance(self, share):
        return self.random.random() < share

    # -- types and names

    def type(self, depth, without=()):
        kinds = ["int", "int", "bool", "text"]
        if depth > 0:
            kinds += ["list", "tuple"] + ["map", "map"] * self.has_maps
            kinds += ["ref"] * ("ref" not in without and self.chance(0.5))
        kind = self.random.choice(kinds)
        if kind == "list":
            return ("list", self.type(depth - 1, without))
        if kind == "tuple":
            return ("tuple", tuple(self.type(depth - 1, without) for _ in range(self.random.randint(1, 2))))
        if kind == "ref":
            return ("ref", self.type(0))
        if kind == "map":
            return ("map", self.random.choice(["int", "int", "bool", "text"]), self.type(depth - 1, without))
        return kind

    def name(self):
        self.names += 1
        return self.random.choice("xyzkv") + (str(self.names) if self.chance(0.7) else "")

    # -- expressions, as texts

    def constant(self, kind):
        if kind == "int":
            return str(self.random.choice(INTEGERS))
        if kind == "bool":
            return self.random.choice(["true", "false"])
        return spelled(Text(self.random.choice(TEXTS))) if kind == "text" else None

    def least(self, kind, names, is_post, before):
        """An expression without larger ones of the type in it."""
        known = [name for name, of in names.items() if of == kind]
        if known and self.chance(0.7):
            return self.random.choice(known)
        if self.constant(kind) is not None:
            return self.constant(kind)
        if kind == "call":
            calls = [operation["name"] for operation in self.operations if not operation["params"]]
            return form("call", self.random.choice(calls)) if calls else "(nth (list call) 0)"
        if kind[0] == "tuple":
            return form("tuple", *(self.least(part, names, is_post, before) for part in kind[1]))
        if kind[0] == "ref":
            return form("nth", form("list", type_text(kind)), "0")
        return type_text(kind) if kind[0] == "map" else form("list", type_text(kind[1]))

    def expression(self, kind, names, is_post, depth, before=ANY_ITEM):
        if self.chance(self.mistakes):
            kind = self.type(1)
        known = [name for name, of in names.items() if of == kind]
        if known and self.chance(0.35):
            return self.random.choice(known)
        if depth <= 0 or self.chance(0.1):
            return self.least(kind, names, is_post, before)
        of = lambda part, among=names: self.expression(part, among, is_post, depth - 1, before)
        heads = self.heads(kind, is_post)
        applied = [one for one in self.functions
                   if one["result"] == kind and one["item"] < before and (is_post or not one["post"])]
        head = self.random.choice(heads + ["apply"] * 3 * (applied != []))
        if head == "apply":
            function = self.random.choice(applied)
            return form(function["name"], *(of(part) for _, part in function["params"]))
        return self.headed(head, kind, names, of)

    def heads(self, kind, is_post):
        if kind == "call":
            return ["call"] * 5 + ["if", "let"]
        heads = ["let", "if", "if", "fold", "at"] + ["nth"] * self.chance(0.15) + ["deref"] * is_post
        heads += ["get"] * (self.has_maps and self.chance(0.3))
        heads += {
            "int": ["+", "-", "*", "div", "rem", "len", "+", "-"],
            "bool": ["<", "<=", "=", "=", "same", "not", "and", "or"] + ["has", "has"] * self.has_maps,
            "text": ["++"],
            "list": ["list", "++", "for", "for"],
            "tuple": ["tuple"] * 3,
            "map": ["put"] * 4 + ["del", "del", "map"],
        }.get(kind if isinstance(kind, str) else kind[0], [])
        if kind[0] == "list" and kind[1] == "int":
            heads.append("range")
        if kind[0] == "list" and kind[1] in KEYS and self.has_maps:
            heads.append("keys")
        return heads

    def headed(self, head, kind, names, of):
        random, plain = self.random, self.type(0)
        if head == "let":
            name, bound = self.name(), self.type(1)
            return form("let", name, of(bound), of(kind, {**names, name: bound}))
        if head == "fold":
            name, result = self.name(), self.name()
            while result == name:
                result = self.name()
            return form("fold", name, of(("list", plain)), result, of(kind), of(kind, {**names, name: plain, result: kind}))
        if head == "for":
            return self.comprehension(kind, names, of)
        if head == "at":
            kinds, place = [self.type(0), self.type(0)], random.randint(1, 2)
            kinds[place - 1] = kind
            return form("at", form("tuple", *map(of, kinds)), str(place))
        if head == "call":
            operation = random.choice(self.operations)
            return form("call", operation["name"], *(of(part) for _, part in operation["params"]))
        if head == "list":
            return form("list", type_text(kind[1]), *(of(kind[1]) for _ in range(random.randint(0, 3))))
        if head == "map":
            return type_text(kind)
        if head == "range":
            return form("range", random.choice(["0", "1", "-1", of("int")]), random.choice(["0", "2", "3", of("int")]))
        key = random.choice(list(KEYS))
        compared = random.choice(["int", "text"])
        equal = self.type(1) if self.chance(0.2) else self.type(1, ("ref",))
        parts = {
            "if": ["bool", kind, kind], "nth": [("list", kind), "int"], "deref": [("ref", kind)],
            "len": [random.choice(["text", ("list", plain)])], "<": [compared] * 2, "<=": [compared] * 2,
            "=": [equal] * 2, "same": [("ref", plain)] * 2, "not": ["bool"], "and": ["bool"] * 2, "or": ["bool"] * 2,
            "++": [kind] * 2, "get": [("map", key, kind), key], "has": [("map", key, plain), key],
        }
        if head == "tuple":
            return form("tuple", *map(of, kind[1]))
        if head in ("put", "del"):
            return form(head, of(kind), of(kind[1]), *[of(kind[2])] * (head == "put"))
        if head == "keys":
            return form("keys", of(("map", kind[1], plain)))
        return form(head, *map(of, parts.get(head, ["int", "int"])))

    def comprehension(self, kind, names, of):
        clauses = []
        for _ in range(self.random.randint(1, 3)):
            if self.chance(0.65):
                name, item = self.name(), self.type(0)
                clauses.append(form("in", name, of(("list", item), names)))
                names = {**names, name: item}
            else:
                clauses.append(form("when", of("bool", names)))
        return form("for", form(*clauses), of(kind[1], names))

    # -- models

    def model(self):
        random, depth = self.random, self.random.randint(1, 3)
        state = self.type(2)
        for number in range(random.randint(1, 3)):
            params = [(f"p{place}", self.type(1)) for place in range(random.choice([0, 0, 1, 1, 2]))]
            self.operations.append({"name": f"op{number}", "params": params, "result": self.type(1, ("ref",))})
        items = [form("state", type_text(state)), form("init", self.initial(state, depth))]
        for number in range(random.choice([0, 0, 1, 2])):
            items.append(self.function(f"f{number}", depth, len(items) + 1))
        calls = self.expression(("list", "call"), {"s": state}, False, 1)
        items.append(form("command", random.choice(["(list call)", calls])))
        items += [self.operation(operation, state, depth) for operation in self.operations]
        return form("model2" if self.has_maps else "model", "random", *items)

    def initial(self, state, depth):
        """An initial state, most often one that does not fault."""
        empty = Model([Word("model2" if self.has_maps else "model"), Word("empty"), [Word("state"), Word("int")]])
        for _ in range(12):
            text = self.expression(state, {}, False, depth)
            try:
                empty.run(read(text)[0], {})
                return text
            except Fault:
                if self.chance(0.1):
                    return text
            except (KeyError, AttributeError, TypeError):
                return text
        return text

    def function(self, name, depth, item):
        params = [(f"a{place}", self.type(1)) for place in range(self.random.randint(0, 2))]
        one = {"name": name, "params": params, "result": self.type(1), "post": self.chance(0.3), "item": item}
        body = self.expression(one["result"], dict(params), one["post"], depth, item)
        self.functions.append(one)
        return form("postfun" if one["post"] else "fun", name, self.params(params), type_text(one["result"]), body)

    def params(self, params):
        return form(*(form(name, type_text(kind)) for name, kind in params))

    def operation(self, one, state, depth):
        names, result = {"s": state, **dict(one["params"])}, one["result"]
        after = {**names, "r": ("ref", result)}
        callbacks = [
            form("pre", self.random.choice(["true", "true", self.expression("bool", names, False, depth)])),
            form("next", "s" if self.chance(0.3) else self.expression(state, after, False, depth)),
            form("post", self.postcondition(one, names, depth)),
        ]
        self.random.shuffle(callbacks)
        return form("op", one["name"], self.params(one["params"]), type_text(result), *callbacks)

    def postcondition(self, one, names, depth):
        if self.chance(0.65):
            answer = self.expression(one["result"], names, True, depth)
            self.answers[one["name"]] = read(answer)[0]
            return form("=", "r", answer) if self.chance(0.8) else form("=", answer, "r")
        if self.chance(0.4):
            return "true"
        return self.expression("bool", {**names, "r": one["result"]}, True, depth)

    # -- items

    def value(self, kind, variables=()):
        """A value of the type, where these pairs of a number and the type of its result may be variables."""
        random = self.random
        if kind == "int":
            return random.choice([0, 1, 2, 3, -1, random.randint(-5, 5), GREATEST, LEAST])
        if kind == "bool":
            return self.chance(0.5)
        if kind == "text":
            return Text(random.choice(TEXTS))
        if kind[0] == "tuple":
            return Tuple(tuple(self.value(part, variables) for part in kind[1]))
        if kind[0] == "list":
            return List(tuple(self.value(kind[1], variables) for _ in range(random.randint(0, 3))))
        if kind[0] == "map":
            keys = [key for key in KEYS[kind[1]] if self.chance(0.5)]
            return Map(tuple((key, self.value(kind[2], variables)) for key in keys))
        fitting = [number for number, result in variables if result == kind[1]]
        return Variable(random.choice(fitting) if fitting else random.randint(0, 9))

    def item(self, model):
        random = self.random
        count = random.choice([2, 2, 2, 3, 4])
        counts = [random.choice([0, 0, 1, 2])] + [random.randint(0, 2 if count > 2 else 3) for _ in range(count)]
        counts.append(random.choice([0, 0, 0, 1, 2]))
        if self.chance(0.01):
            counts[random.randrange(len(counts))] = random.choice([9, 17, 65])
        parts = self.commands(model, counts, 0.1 if self.chance(0.15) else 0.0)
        has_suffix = counts[-1] > 0 or self.chance(0.05)
        trees = self.item_trees(model, parts, has_suffix)
        if self.chance(0.3):
            return spelled([Word("case"), *trees])
        outcomes = self.outcomes(parts) if self.chance(self.unknowns) else None
        replies = [[self.reply_tree(one) for one in part] for part in self.replies(model, parts, outcomes)]
        times = [[Word("times"), *self.times(replies[1:-1])]] * self.chance(0.5)
        replies = replies if has_suffix else replies[:-1]
        if self.chance(0.01):
            replies.pop()
        return spelled([Word("run"), *trees, [Word("replies"), *replies], *times])

    def times(self, replies):
        """Times of the calls of branches: half of them around the places of the interleaving that gave the replies."""
        merge = self.merge
        if self.chance(0.5):
            merge = self.random.sample(merge, len(merge))
        times, instant = [[] for _ in replies], lambda least, most: self.random.randint(least, most)
        for place, branch in enumerate(merge):
            at, last = 4 * place + 4, times[branch][-1][1] if times[branch] else 0
            if last > at:
                times[branch][-1][1] = last = at
            times[branch].append([instant(last, at), at + instant(0, 9)])
        trees = [[[Word(str(number)) for number in time] for time in part] for part in times]
        for part, answers in zip(trees, replies):
            if part and self.chance(0.1):
                part[-1][1] = Word("-")
            del part[sum(reply != Word("not-run") for reply in answers):]
            if part and Word("unknown") in answers and self.chance(0.9):
                part[-1][1] = Word("-")
        return self.mistaken(trees)

    def mistaken(self, trees):
        """Times with a mistake, now and then."""
        calls = [(part, place) for part in trees for place in range(len(part))]
        if not calls or self.chance(0.93):
            return trees
        part, place = self.random.choice(calls)
        wrong = ["-", "x", "01", "0", str(1 << 64), str((1 << 64) - 1), "9"]
        choice = self.random.randrange(5)
        if choice == 0:
            part.pop(place)
        elif choice == 1:
            part[place] = self.random.choice([Word("5"), [], [Word("5")], [Word("5"), Word("6"), Word("7")]])
        elif choice == 2:
            trees.pop()
        else:
            part[place][self.random.randrange(2)] = Word(self.random.choice(wrong))
        return trees

    def commands(self, model, counts, mistakes):
        """The commands of each part, as pairs of an operation and its arguments."""
        owners = [part for part, count in enumerate(counts) for _ in range(count)]
        results, commands = [], []
        for owner in owners:
            seen = [(number, kind) for number, (kind, of) in enumerate(zip(results, owners), 1)
                    if of in (0, owner) or owner == len(counts) - 1 or self.chance(mistakes)]
            lawful = [one for one in model.operations if all(
                kind[0] != "ref" or any(result == kind[1] for _, result in seen) for _, kind in one.params)]
            operation = self.random.choice(lawful or model.operations)
            kinds = [self.type(1) if self.chance(mistakes) else kind for _, kind in operation.params]
            commands.append((operation, [self.value(kind, seen) for kind in kinds]))
            results.append(operation.result)
        parts = []
        for count in counts:
            parts.append(commands[:count])
            commands = commands[count:]
        return parts

    def item_trees(self, model, parts, has_suffix):
        command = lambda one: [Word("absent" if self.chance(self.absent) else one[0].name), *map(tree_of_value, one[1])]
        prefix, *branches, suffix = [[command(one) for one in part] for part in parts]
        trees = [[Word("prefix"), *prefix]]
        if len(branches) == 2 and self.chance(0.8):
            trees += [[Word("left"), *branches[0]], [Word("right"), *branches[1]]]
        else:
            trees += [[Word("branches"), *branches]]
        return trees + [[Word("suffix"), *suffix]] * has_suffix

    def outcomes(self, parts):
        """What became of each command: a value, an unknown outcome, or that it was not run, with a mistake now and then."""
        outcomes = [["value"] * len(part) for part in parts]
        chosen = [number for number, part in enumerate(parts) if part and self.chance(0.15 if number == 0 else 0.5)]
        for number in chosen:
            place = self.random.randrange(len(parts[number]))
            outcomes[number][place:] = ["unknown"] + ["not-run"] * (len(parts[number]) - place - 1)
        if "unknown" in outcomes[0] and self.chance(0.9):
            for part in outcomes[1:-1]:
                part[:] = ["not-run"] * len(part)
        flat, missing = [one for part in outcomes for one in part], set()
        commands = [one for part in parts for one in part]
        for number, (_, arguments) in enumerate(commands, 1):
            needs = any(variable in missing for argument in arguments for variable in variables_in(argument))
            if needs and flat[number - 1] == "value" and self.chance(0.97):
                flat[number - 1] = "not-run"
            if flat[number - 1] != "value":
                missing.add(number)
        if flat and self.chance(0.03):
            flat[self.random.randrange(len(flat))] = self.random.choice(["value", "failed", "misfit", "not-run", "unknown"])
        return flat

    def order_of_effects(self, order, outcomes):
        """The order of the commands that took effect: some of unknown outcome do so late, and some never."""
        effects = [index for index in order if outcomes[index] == "value"]
        for index in order:
            if outcomes[index] == "unknown" and self.chance(0.6):
                first = sum(outcomes[other] == "value" for other in order[:order.index(index)])
                effects.insert(first if self.chance(0.5) else self.random.randint(first, len(effects)), index)
        return effects

    def replies(self, model, parts, outcomes=None):
        """Replies as along one interleaving, where the postconditions say them, and of some commands others."""
        commands = [one for part in parts for one in part]
        replies = [None] * len(commands)
        merge = [branch for branch, part in enumerate(parts[1:-1]) for _ in part]
        self.random.shuffle(merge)
        self.merge = merge
        recorded = lambda one: Reference(one.number, replies[one.number - 1])
        try:
            state = model.run(model.single["init"], {})
            order = order_of(parts, merge)
            for index in order if outcomes is None else self.order_of_effects(order, outcomes):
                operation, arguments = commands[index]
                names = operation.names(state, [with_parts(one, recorded) for one in arguments])
                replies[index] = self.reply(model, operation, names)
                after = {**names, "r": Reference(index + 1, replies[index])}
                state = model.run(operation.callbacks["next"], after)
        except (Fault, IndexError, TypeError, AttributeError):
            pass
        share = 0.06 if self.chance(0.8) else 0.3
        for index, (operation, _) in enumerate(commands):
            if replies[index] is None or self.chance(share):
                replies[index] = self.value(operation.result)
            if outcomes is not None and outcomes[index] != "value":
                replies[index] = Word(outcomes[index])
        numbers = iter(replies)
        return [[next(numbers) for _ in part] for part in parts]

    def reply(self, model, operation, names):
        if operation.name not in self.answers:
            return self.value(operation.result)
        return without_references(model.run(self.answers[operation.name], names))

    def reply_tree(self, value):
        if isinstance(value, Word):
            return value
        if self.chance(0.005):
            return read(self.random.choice(["misfit", "failed", "$1", "(map (2 1) (1 1))", "(list misfit)", "9" * 20]))[0]
        return tree_of_value(value)


def without_references(value):
    if isinstance(value, Reference):
        if value.value is None:
            raise TypeError("a reference to a result that is not known")
        return without_references(value.value)
    if isinstance(value, (Tuple, List)):
        return type(value)(tuple(map(without_references, parts_of(value))))
    if isinstance(value, Map):
        return Map(tuple((without_references(key), without_references(part)) for key, part in value.entries))
    return value
