"""Random models and plans of campaigns on `stuck`."""
from inputs import form
from values import GREATEST

STATES = {
    "int": ("int", ["0", "0", "1", "3", str(GREATEST - 1)], "s", ["s", "(+ s 1)", "(- s 1)", "0"]),
    "list": ("(list int)", ["(list int)"], "(len s)",
             ["s", "(++ s (list int 1))", "(for ((in x s) (when (< x 2))) x)", "(list int (nth s 0))"]),
    "map": ("(map int int)", ["(map int int)"], "(len (keys s))",
            ["s", "(put s (len (keys s)) 7)", "(del s 0)", "(put s 1 (get s 0))"]),
    "references": ("(list (ref int))", ["(list (ref int))"], "(len s)",
                   ["s", "(++ s (list (ref int) r))", "(for ((in x s) (when (not (same x r)))) x)",
                    "(list (ref int) (nth s 0))"]),
}


def campaign_model(random):
    has_maps = random.random() < 0.4
    state = random.choice(["int", "list", "map"] if has_maps else ["int", "list", "references"])
    kind, starts, size, nexts = STATES[state]
    bound = random.randint(1, 6)
    pres = ["true", "true", f"(< {size} {bound})", f"(< 0 {size})", f"(< 0 (div 3 (- {size} 2)))"]
    posts = ["true", "(= r 0)", f"(= r {size})", f"(< r {bound})", f"(< {size} {bound})", f"(= 0 (div 4 (- {size} r)))"]
    operations, calls = [], ["(call inc)", "(call get)"]
    for name in ("inc", "get"):
        result = random.choice(["int"] * 9 + ["bool", "text"])
        following = "s" if state == "references" and result != "int" else random.choice(nexts)
        post = random.choice(posts) if result == "int" else "true"
        operations.append(f"(op {name} () {result} (pre {random.choice(pres)}) (next {following}) (post {post}))")
    if random.random() < 0.25:
        operations.append(f"(op other () int (pre {random.choice(pres)}) (next s) (post true))")
        calls.append("(call other)")
    random.shuffle(calls)
    command = form("list", "call", *calls[:random.randint(1, len(calls))])
    if state == "references" and random.random() < 0.7:
        is_open = "(< 0 (len (for ((in x s) (when (same x h))) x)))"
        operations.append(f"(op use ((h (ref int))) int (pre {is_open}) (next s) (post true))")
        command = form("++", command, "(for ((in x s)) (call use x))")
    head = "model2" if has_maps else "model"
    return form(head, "random", form("state", kind), form("init", random.choice(starts)), form("command", command), *operations)


def campaign_plan(random):
    branches = random.choice([1, 2, 2, 2, 3, 4])
    return {
        "seed": random.choice([0, 7, random.getrandbits(64)]),
        "trials": random.randint(1, 8),
        "commands": random.randint(1, 8 if branches < 3 else 6),
        "branches": branches,
        "suffix": random.choice([0, 0, 1, 2, 8]),
        "repeats": random.choice([1, 1, 2]),
        "limit": random.choice([1000, 1000, 0, 1, 2, 5]),
    }
