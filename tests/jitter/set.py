#!/usr/bin/env python3
"""A client of examples/cache.model in one process (--shared) whose `add` looks and then stores. Python's lock hides this race."""
import json, os, threading


class Values:
    def __init__(self):
        self.values = set()

    def reset(self):
        self.values.clear()
        return True

    clear = reset

    def has(self, value):
        return value in self.values

    def add(self, value):
        is_new = value not in self.values
        if is_new:
            self.values.add(value)
        return is_new


def answer(values, pipe):
    with open(f"{pipe}.calls") as calls, open(f"{pipe}.answers", "w") as answers:
        for line in calls:
            name, *words = json.loads(line)
            print(json.dumps(getattr(values, name)(*words)), file=answers, flush=True)


values = Values()
for branch in range(1, int(os.environ["PST_BRANCHES"]) + 1):
    threading.Thread(target=answer, args=(values, f"{os.environ['PST_PIPES']}-{branch}")).start()
