#!/usr/bin/env python3
"""Makes bursts as `pst` does, on clients of the names that tests/bursts has: bursts.py [--shared] [--seconds N] COMMAND

COMMAND claims names in one step, and with `--racy` at its end in two. The first part holds the lines and the answers of each client against
docs/clients.md, with two clients and with four. The second makes bursts of the case in which two branches claim a name: of the right form for N
seconds, in which each drive has one winner, then of the racy form until a drive has two. It prints what differs, the drives a second, and
how soon the race was found.
"""
import argparse, json, os, select, shutil, signal, subprocess, sys, tempfile, time

failed = []


def check(what, holds, *shown):
    """Notes a check that does not hold."""
    if not holds:
        failed.append(what)
        print(f"bursts: {what}: {' '.join(map(str, shown))[:1000]}")


class Ended(Exception):
    """The client ended before it answered."""


class Client:
    """The pipes of a client: descriptors to write and to read."""

    def __init__(self, calls, answers):
        self.calls, self.answers, self.rest = calls, answers, b""

    def send(self, *words):
        os.write(self.calls, json.dumps(words, separators=(",", ":")).encode() + b"\n")

    def read(self, seconds=200):
        """Returns the next line of the client."""
        end = time.monotonic() + seconds
        while b"\n" not in self.rest:
            if not select.select([self.answers], [], [], max(0, end - time.monotonic()))[0]:
                raise TimeoutError(f"no answer in {seconds} seconds")
            part = os.read(self.answers, 1 << 16)
            if not part:
                raise Ended
            self.rest += part
        line, self.rest = self.rest.split(b"\n", 1)
        return line.decode()

    def ask(self, *words):
        self.send(*words)
        return self.read()

    def close(self):
        for end in {self.calls, self.answers}:
            os.close(end)


class Worker:
    """The clients of a worker, which are processes, or one process (`is_shared`)."""

    def __init__(self, command, branches, is_shared):
        self.command, self.branches, self.is_shared = command, branches, is_shared
        self.folder = tempfile.mkdtemp(prefix="bursts-")
        self.gate = f"{self.folder}/1.gate"
        with open(self.gate, "wb") as file:
            file.write(bytes(4096))
        self.clients, self.processes, self.bursts = [None] * branches, {}, 0
        if is_shared:
            for branch in range(1, branches + 1):
                for end in ("calls", "answers"):
                    os.mkfifo(f"{self.folder}/1-{branch}.{end}")
            self.start_shared()
        else:
            for branch in range(branches):
                self.start(branch)

    def spawn(self, **more):
        given = {"PST_WORKER": "1", "PST_BRANCHES": str(self.branches), "PST_GATE": self.gate, "TMPDIR": self.folder}
        pipe = subprocess.DEVNULL if self.is_shared else subprocess.PIPE
        environment = {**os.environ, **given, **more}
        return subprocess.Popen(["bash", "-c", f"exec {self.command}"], env=environment, stdin=pipe, stdout=pipe, process_group=0)

    def start(self, branch):
        """Starts the client of a branch, from 0."""
        process = self.spawn(PST_BRANCH=str(branch + 1))
        self.processes[branch] = process
        self.clients[branch] = Client(os.dup(process.stdin.fileno()), os.dup(process.stdout.fileno()))
        process.stdin.close()
        process.stdout.close()

    def start_shared(self):
        self.processes[0] = self.spawn(PST_PIPES=f"{self.folder}/1")
        for branch in range(self.branches):
            pipe = f"{self.folder}/1-{branch + 1}"
            self.clients[branch] = Client(os.open(f"{pipe}.calls", os.O_WRONLY), os.open(f"{pipe}.answers", os.O_RDONLY))

    def start_again(self, branch):
        """Starts the client of a branch again, which has ended. With `--shared` all have."""
        for at in range(self.branches) if self.is_shared else [branch]:
            self.clients[at].close()
        self.processes[0 if self.is_shared else branch].wait()
        self.start_shared() if self.is_shared else self.start(branch)

    def reset(self):
        return [client.ask("reset") for client in self.clients]

    def send(self, drives, prefix, branches, suffix):
        """Asks all clients for the next burst."""
        self.bursts += 1
        for at, client in enumerate(self.clients):
            branch = branches[at] if at < len(branches) else []
            client.send("burst", self.bursts, drives, *([prefix, branch, suffix] if at == 0 else [[], branch, []]))

    def burst(self, drives, prefix, branches, suffix):
        """Makes a burst, and returns the drives that all clients made: for each the lists of answers of all clients."""
        self.send(drives, prefix, branches, suffix)
        lengths = [len(branches[at] if at < len(branches) else []) + (0 if at else len(prefix) + len(suffix)) for at in range(self.branches)]
        return list(zip(*(drives_of(client.read(), length) for client, length in zip(self.clients, lengths))))

    def drive(self, branches):
        """Makes one drive by lines, and returns the answers to the first call of each branch."""
        self.reset()
        for client, branch in zip(self.clients, branches):
            client.send(*branch[0])
        return [client.read() for client, _ in zip(self.clients, branches)]

    def end(self):
        for client in self.clients:
            client.close()
        for process in self.processes.values():
            try:
                process.wait(1)
            except subprocess.TimeoutExpired:
                os.killpg(process.pid, signal.SIGKILL)
                process.wait()
        shutil.rmtree(self.folder)


def drives_of(line, length):
    """Returns the list of answers of each drive, from the line that answers a burst. Each list is in the line once."""
    check("at most 1,000,000 bytes", len(line) <= 1_000_000, len(line))
    try:
        places, *lists = json.loads(line)
    except ValueError:
        check("a burst is answered by JSON", False, line)
        return []
    are_answers = [len(it) == length and all(answer is None or isinstance(answer, str) for answer in it) for it in lists]
    check("each list has its answers", all(are_answers), length, lists)
    check("a list is in the line once", len(set(map(tuple, lists))) == len(lists) == len(set(places)), line)
    check("the lists are those of the drives", set(places) == set(range(len(lists))), line)
    return [tuple(lists[place]) for place in places]


def took(action):
    begun = time.monotonic()
    return action(), time.monotonic() - begun


def check_drives(worker):
    """Checks the drives that go well."""
    check("a client that bursts answers a reset", worker.reset() == ["burst"] * worker.branches)
    check("a single call", worker.clients[0].ask("claim", "a") == "true")
    worker.reset()
    empty = [()] * (worker.branches - 2)
    for number in (1, 100, 1000) if worker.branches == 2 else (1, 20):
        branches = [[["claim", "a"]], [["claim", "b"], ["claimed", "a"]]]
        got = worker.burst(number, [["claim", "a"]], branches, [["claimed", "b"]])
        check(f"{number} drives", got == [(("true", "false", "true"), ("true", "true"), *empty)] * number, got[:2])
    check("drives of no calls", worker.burst(7, [], [], []) == [((), (), *empty)] * 7)
    got = worker.burst(100, [], [[["count"]], []], [["count"]])
    numbers = [int(answer) for drive in got for answer in drive[0]]
    check("100 drives that differ", len(numbers) == 200 and numbers == list(range(numbers[0], numbers[0] + 200)), numbers)


def check_failures(worker):
    """Checks what is not called after a call that failed."""
    got = worker.burst(10, [], [[["claimed", "a"]], [["claim", "b"], ["fail"], ["count"]]], [["claimed", "b"]])
    is_right = lambda own, other: own[1:] == ("true",) and other[0] == "true" and other[1].startswith("failed") and other[2] is None
    check("a call that fails in a branch", len(got) == 10 and all(is_right(*drive[:2]) for drive in got), got)
    got = worker.burst(10, [], [[["fail"], ["count"]], [["claimed", "a"]]], [["count"]])
    check("no suffix after a failure", len(got) == 10 and all(drive[0][1:] == (None, None) for drive in got), got)
    got = worker.burst(10, [], [[], []], [["count"], ["fail"], ["count"]])
    check("a call that fails in the suffix", len(got) == 10 and all(drive[0][1].startswith("failed") and drive[0][2] is None for drive in got), got)
    got, seconds = took(lambda: worker.burst(10, [["count"], ["fail"], ["count"]], [[["count"]], [["count"]]], []))
    check("a call that fails in the prefix ends the burst", got == [] and seconds < 5, got, seconds)
    got = worker.burst(10, [["claim", "a"]], [[["claimed", "a"]], []], [])
    check("the next burst", got == [(("true", "true"),) + ((),) * (worker.branches - 1)] * 10, got)


def check_unknown(worker):
    got = worker.burst(10, [], [[["unknown"], ["count"]], []], [["claim", "a"]])
    check("a suffix after an outcome that is unknown", len(got) == 10 and all(drive[0][1:] == (None, "true") for drive in got), got)


def check_limits(worker):
    """Checks answers that grow too long, and lines that are no bursts."""
    for branch in range(worker.branches):
        branches = [[] for _ in range(worker.branches)]
        branches[branch] = [["text", 300_000], ["count"]]
        got, seconds = took(lambda: worker.burst(10, [], branches, []))
        check("drives up to 1,000,000 bytes", len(got) == 3 and seconds < 5, len(got), seconds)
    for words in [], [1], [1, 0, [], [], []], [1, 1001, [], [], []], [1, "x", [], [], []], [1, 1, 1, 1, 1], [2**32, 1, [], [], []]:
        answer = worker.clients[0].ask("burst", *words)
        check("a line that is no burst", answer.startswith("failed"), words, answer)
    check("a burst after it", len(worker.burst(10, [], [[["claim", "a"]]], [])) == 10)


def check_ends(worker):
    """Checks that no client waits for another one for long."""
    worker.bursts += 1
    worker.clients[0].send("burst", worker.bursts, 10, [], [["claim", "a"]], [])
    got, seconds = took(worker.clients[0].read)
    check("a burst without the other clients", got == "[[]]" and 1.5 < seconds < 6, got, seconds)
    check("a burst after it", len(worker.burst(10, [], [[["claim", "a"]]], [])) == 10)
    worker.send(100, [], [[["claim", "a"]], [["end"]]], [])
    begun = time.monotonic()
    for at, client in enumerate(worker.clients):
        try:
            drives = drives_of(client.read(), 1 if at == 0 else 0)
            check("a burst with a client that ends", at != 1 and len(drives) <= min(at, 1), at, drives)
        except Ended:
            check("a client that ends", at == 1 or worker.is_shared, at)
    check("a client that ends is not waited for", time.monotonic() - begun < 6, time.monotonic() - begun)
    worker.start_again(1)
    check("a reset after it", worker.reset() == ["burst"] * worker.branches)
    check("a burst of the client that was started again", len(worker.burst(10, [], [[["claim", "a"]]], [])) == 10)


def burst_claims(worker, seconds):
    """Makes bursts in which two branches claim a name, until one has two winners. Returns the drives, the seconds, and what each such drive answered."""
    begun, drives, wrong = time.monotonic(), 0, []
    while time.monotonic() - begun < seconds and not wrong:
        worker.reset()
        got = worker.burst(100, [], [[["claim", "a"]], [["claim", "a"]]], [["claimed", "a"]])
        drives += len(got)
        check("100 drives of claims", len(got) == 100, len(got))
        wrong = [drive for drive in got if sorted([drive[0][0], drive[1][0]]) != ["false", "true"] or drive[0][1] != "true"]
    return drives, time.monotonic() - begun, wrong


def rate(worker, seconds):
    """Returns how many drives a second two branches make that look at a name."""
    begun, drives = time.monotonic(), 0
    while time.monotonic() - begun < seconds:
        drives += len(worker.burst(100, [], [[["claimed", "a"]], [["claimed", "a"]]], []))
    return drives / (time.monotonic() - begun)


def single_claims(worker, seconds):
    """Makes single drives of the same case. Returns how many there were, and how many had two winners."""
    begun, drives, wrong = time.monotonic(), 0, 0
    while time.monotonic() - begun < seconds:
        drives += 1
        wrong += worker.drive([[["claim", "a"]], [["claim", "a"]]]) == ["true", "true"]
    return drives, wrong


def main():
    parser = argparse.ArgumentParser()
    parser.add_argument("--shared", action="store_true")
    parser.add_argument("--unknown", action="store_true", help="the client has a call whose outcome is unknown")
    parser.add_argument("--seconds", type=float, default=1)
    parser.add_argument("--single", type=float, default=0, help="seconds of single drives of the racy form")
    parser.add_argument("command")
    given = parser.parse_args()
    for branches in (2, 4):
        worker = Worker(given.command, branches, given.shared)
        check_drives(worker)
        check_failures(worker)
        if given.unknown:
            check_unknown(worker)
        check_limits(worker)
        check_ends(worker)
        worker.end()
    worker = Worker(given.command, 2, given.shared)
    drives, seconds, wrong = burst_claims(worker, given.seconds)
    check("the right form has one winner", not wrong, wrong)
    print(f"{rate(worker, given.seconds):,.0f} drives a second, {drives / seconds:,.0f} of the right form")
    worker.end()
    worker = Worker(given.command + " --racy", 2, given.shared)
    if given.single:
        print("of {:,} single drives {:,} had two winners".format(*single_claims(worker, given.single)))
    drives, seconds, wrong = burst_claims(worker, 60)
    check("the racy form has two winners", wrong, drives, "drives")
    check("the answers show it", all(drive[0][0] == drive[1][0] == "true" for drive in wrong), wrong)
    print(f"two winners in drive {drives:,} at most, after {seconds:.2f} seconds")
    worker.end()
    sys.exit(f"{len(failed)} checks failed" if failed else 0)


main()
