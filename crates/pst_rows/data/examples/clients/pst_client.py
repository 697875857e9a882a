"""Tests a Python object whose methods several threads call at once, or a system that several processes call.

`check` is for the tests of pytest and unittest. `serve` makes a client for `pst campaign --shared --client`, and `serve_branch` one for
`pst campaign --client`. Both make bursts (docs/clients.md).
"""
import json, mmap, os, pathlib, random, shutil, subprocess, sys, tempfile, threading, time, traceback


class Unknown(Exception):
    """A call raises this if nobody knows whether it took effect, as after a timeout."""


def yields(frame, event, arg):
    """Lets another thread run between two lines of the system, every other time. Without it Python's lock hides most races."""
    if random.random() < 0.5:
        time.sleep(0)
    return yields


class BurstEnds(Exception):
    """The burst of a branch ends before the drive that the branch is in."""


class Gate:
    """The words by which the branches of a worker wait for each other in a burst, in a file that several processes have."""

    END = 2**32 - 1  # the step of a branch that has ended its burst

    def __init__(self, branches, memory):
        self.branches, self.words = range(1, branches + 1), memoryview(memory).cast("Q")

    def set(self, branch, burst, step):
        """Says that a branch has come to a step."""
        self.words[8 * branch] = (burst << 32) + step

    def part(self, branch):
        """Moves this process to another processor than those of the other branches. It may move again, but a busy system would leave all on one."""
        allowed = sorted(os.sched_getaffinity(0))
        os.sched_setaffinity(0, {allowed[(int(os.environ.get("PST_WORKER", 0)) * len(self.branches) + branch) % len(allowed)]})
        os.sched_setaffinity(0, allowed)

    def wait(self, branches, burst, step):
        """Waits until these branches have come to a step. Raises BurstEnds if one of them has ended the burst, or after two seconds."""
        begun = time.monotonic()
        for branch in branches:
            while self.words[8 * branch] < (burst << 32) + step:
                waited = time.monotonic() - begun
                if waited > 2:
                    raise BurstEnds
                if waited > 0.00001:  # the other one may wait for this processor
                    os.sched_yield() if waited < 0.001 else time.sleep(0.00005)
            if self.words[8 * branch] >= (burst << 32) + self.END:
                raise BurstEnds


class GateOfThreads(Gate):
    """The same for threads of this process. They do not spin, since that would keep Python's lock from each other."""

    def __init__(self, branches):
        super().__init__(branches, bytearray(4096))
        self.changed = threading.Condition()

    def part(self, branch):
        pass

    def set(self, branch, burst, step):
        with self.changed:
            super().set(branch, burst, step)
            self.changed.notify_all()

    def wait(self, branches, burst, step):
        with self.changed:
            if not self.changed.wait_for(lambda: all(self.words[8 * branch] >= (burst << 32) + step for branch in branches), 2):
                raise BurstEnds
        super().wait(branches, burst, step)


class Branch:
    """A branch, which answers the lines of its calls. `call(name, arguments)` makes a call, under a function of `sys.settrace`."""

    def __init__(self, number, gate, call, trace=None):
        self.number, self.gate, self.call, self.trace = number, gate, call, trace

    def answer(self, line):
        """Returns the line that answers a line."""
        words = json.loads(line)
        if words[0] == "burst" and [type(word) for word in words[1:]] == [int, int, list, list, list]:
            return self.burst(*words[1:])
        answer = self.make(words)
        return "burst" if words[0] == "reset" and self.gate and not self.fails(answer) else answer

    def make(self, words):
        """Makes a call, and returns the line that answers it."""
        try:
            sys.settrace(self.trace)
            answer = self.call(words[0], words[1:])
            sys.settrace(None)
            return json.dumps(answer)
        except Exception as error:
            sys.settrace(None)
            return f"{'unknown' if isinstance(error, Unknown) else 'failed'}: {error!r}".replace("\n", " ")

    @staticmethod
    def fails(answer):
        return answer.startswith(("failed", "unknown"))

    def make_all(self, calls):
        """Makes calls up to one that fails, and returns an answer for each, None if it was not made."""
        answers = [None] * len(calls)
        for at, words in enumerate(calls):
            answers[at] = self.make(words)
            if self.fails(answers[at]):
                break
        return answers

    def burst(self, burst, drives, *parts):
        """Makes the drives of a burst, and returns the line with the number of each one's answers, and each list of answers once."""
        if not self.gate or not 1 <= drives <= 1000 or not 0 < burst < 2**32:
            return "failed: this burst cannot be made"
        calls, places, lists, size = json.dumps(parts), [], {}, 10
        limit = time.monotonic() + float(os.environ.get("PST_BURST_MILLISECONDS", "inf")) / 1000
        try:
            self.gate.set(self.number, burst, 0)
            for at in range(drives):
                if at % 16 == 0:
                    self.gate.part(self.number)
                text = json.dumps(self.drive(burst, 3 * at, *json.loads(calls)), separators=",:")  # a system may change its arguments
                size += 6 + (len(text) if text not in lists else 0)
                if size > 1000000:
                    raise BurstEnds
                places.append(lists.setdefault(text, len(lists)))
                if self.number == 1 and time.monotonic() > limit:
                    raise BurstEnds
        except BurstEnds:
            self.gate.set(self.number, burst, Gate.END)
        return f"[{','.join([json.dumps(places, separators=',:'), *lists])}]"

    def drive(self, burst, step, prefix, branch, suffix):
        """Makes a drive: a reset after that of the branch before, the prefix, the branch at the same time as the others, the suffix."""
        is_first, everyone = self.number == 1, self.gate.branches
        self.gate.wait(everyone if is_first else [self.number - 1], burst, step if is_first else step + 1)
        reset = self.make(["reset"])
        if self.fails(reset):
            raise BurstEnds
        self.gate.set(self.number, burst, step + 1)
        if is_first:
            self.gate.wait(everyone, burst, step + 1)
        prefix = self.make_all(prefix)
        if any(answer is None or self.fails(answer) for answer in prefix):
            raise BurstEnds
        self.gate.set(self.number, burst, step + 2)
        self.gate.wait(everyone, burst, step + 2)
        branch = self.make_all(branch)
        self.gate.set(self.number, burst, step + 3)
        if is_first:
            self.gate.wait(everyone, burst, step + 3)
        has_failed = any(answer and answer.startswith("failed") for answer in branch)
        return prefix + branch + ([None] * len(suffix) if has_failed else self.make_all(suffix))


class Systems:
    """The systems of one worker, one after another: each reset of branch 1 makes a new one."""

    def __init__(self, make_system):
        self.make_system = make_system
        self.system = None

    def answer_branch(self, pipes, number, gate):
        """Answers the lines of a branch until they end."""
        def call(name, arguments):
            if name != "reset":
                return getattr(self.system, name.replace("-", "_"))(*arguments)
            if number == 1:
                self.system = self.make_system()
            return True

        branch = Branch(number, gate, call, yields)
        with open(f"{pipes}-{number}.calls") as asked, open(f"{pipes}-{number}.answers", "w") as answers:
            for line in asked:
                print(branch.answer(line), file=answers, flush=True)

    def start(self, pipes, branches):
        """Starts a thread for each branch, and returns the threads."""
        gate = GateOfThreads(branches)
        threads = [
            threading.Thread(target=self.answer_branch, args=(pipes, number, gate), name=f"branch {number}", daemon=True) for number in gate.branches
        ]
        for thread in threads:
            thread.start()
        return threads


def serve(make_system):
    """Answers the calls of all branches on systems of this process, as `make_system` makes them for `check`."""
    if "PST_PIPES" not in os.environ:
        sys.exit(f"PST_PIPES is not set: run this client by pst campaign --client 'python3 {sys.argv[0]}' --shared")
    for thread in Systems(make_system).start(os.environ["PST_PIPES"], int(os.environ["PST_BRANCHES"])):
        thread.join()


def serve_branch(calls):
    """Answers the calls of the branch of this process: `calls` has a function for each operation, by its name, and one for `reset`."""
    gate = None
    if "PST_GATE" in os.environ:
        with open(os.environ["PST_GATE"], "r+b") as file:
            gate = Gate(int(os.environ["PST_BRANCHES"]), mmap.mmap(file.fileno(), 4096))
    branch = Branch(int(os.environ["PST_BRANCH"]), gate, lambda name, arguments: calls[name](*arguments))
    for line in sys.stdin:
        print(branch.answer(line), flush=True)


def find_program():
    """Returns the program: PST names it, or it is on the PATH, or this file is in the folder of `pst`."""
    launchers = [folder / "pst" for folder in pathlib.Path(__file__).resolve().parents if (folder / "tools" / "with-clients").is_file()]
    for program in [os.environ.get("PST"), shutil.which("pst"), *map(str, launchers)]:
        if program:
            return program
    raise RuntimeError("no program pst: set PST or put it on PATH")


def check(model, make_system, trials=200, branches=2, limit=200, timeout=None, **options):
    """Runs a campaign on systems of this process, and raises an AssertionError that explains its smallest failure, if it has any.

    `model` is the file of the model. `make_system` takes no arguments and returns a system in the initial state of the model: an object that
    has a method for each operation. Other arguments are options of `pst campaign`, as in `seed=7, max_failures=1`. The test fails too if the
    campaign takes more than `timeout` seconds, as when a call hangs.
    """
    options = {"workers": 1, "branches": branches, "trials": trials, "limit": limit, **options}
    options = {name.replace("_", "-"): str(value) for name, value in options.items()}
    workers, branches = [range(1, int(options[name]) + 1) for name in ("workers", "branches")]
    with tempfile.TemporaryDirectory() as folder:
        words = [find_program(), "campaign", f"shared:{folder}", str(model)]
        words += [word for name, value in options.items() for word in (f"--{name}", value)]
        pipes = [f"{folder}/{worker}-{branch}.{end}" for worker in workers for branch in branches for end in ("calls", "answers")]
        for pipe in pipes:
            os.mkfifo(pipe)
        threads = [thread for worker in workers for thread in Systems(make_system).start(f"{folder}/{worker}", len(branches))]
        try:
            ran = subprocess.run(words, stdin=subprocess.DEVNULL, capture_output=True, text=True, timeout=timeout)
        except subprocess.TimeoutExpired:
            raise AssertionError(f"the campaign did not end in {timeout} seconds\n{places_of(threads)}") from None
        finally:
            for pipe in pipes:  # a thread that still waits for the other end goes on
                os.close(os.open(pipe, os.O_RDWR | os.O_NONBLOCK))
    if ran.returncode == 1:
        raise AssertionError(f"the model cannot explain a run\n{ran.stderr}\n{ran.stdout}")
    if ran.returncode != 0:
        raise RuntimeError(f"{' '.join(words)}\n{ran.stderr}{ran.stdout}")


def places_of(threads):
    """Returns where the threads of the branches are."""
    frames = sys._current_frames()
    return "".join(f"{thread.name} is at\n{''.join(traceback.format_stack(frames[thread.ident]))}" for thread in threads if thread.ident in frames)
