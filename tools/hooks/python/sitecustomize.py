"""Pauses at random between the lines of a program. `pst jitter` puts this folder on PYTHONPATH, so Python imports this module when it starts.

PST_JITTER_PAUSES has the longest pauses in microseconds, as 5,50,300, by turns. PST_JITTER_SEED chooses the pauses, with PST_WORKER and PST_BRANCH. Lines
of the library and of installed packages have no pauses.
"""
import _random  # `random` would hide a module of the program that has this name
import itertools, os, sys, threading, time

LINES_FOR_A_PAUSE = 4


class Pauses:
    def __init__(self, seed, longest):
        self.turns = itertools.cycle(longest)
        self.generator = _random.Random(seed)
        self.sleep = time.sleep  # some libraries put another one in its place
        self.seed_of_child = 0
        os.register_at_fork(before=self.draw_seed, after_in_child=self.take_seed)

    def draw_seed(self):
        self.seed_of_child = self.generator.getrandbits(64)

    def take_seed(self):
        """A child would else draw what its parent draws."""
        self.generator.seed(self.seed_of_child)

    def pause(self):
        """Lets other threads and processes run, at one line in four."""
        if self.generator.getrandbits(16) % LINES_FOR_A_PAUSE == 0:
            self.sleep(next(self.turns) * self.generator.random() * 1e-6)


def number(name):
    text = os.environ.get(name, "")
    return int(text) if text.isdecimal() else 0


def trace(pauses):
    """Pauses between the lines of each function of the program that is called from now on, in each thread."""
    library = (os.path.dirname(os.__file__) + os.sep, "<frozen ")

    def enter_line(frame, event, argument):
        if event == "line":
            pauses.pause()
        return enter_line

    def enter_call(frame, event, argument):
        name = frame.f_code.co_filename
        return None if name.startswith(library) or "-packages" + os.sep in name else enter_line

    threading.settrace(enter_call)
    sys.settrace(enter_call)


def import_hidden():
    """Imports the module `sitecustomize` that this one hides, if there is one, in its place."""
    here = os.path.dirname(os.path.abspath(__file__))
    sys.path[:] = [folder for folder in sys.path if os.path.abspath(folder) != here]
    this = sys.modules.pop("sitecustomize")
    try:
        import sitecustomize
    except ModuleNotFoundError as error:
        if error.name != "sitecustomize":
            raise
        sys.modules["sitecustomize"] = this


longest = [int(word) for word in os.environ.get("PST_JITTER_PAUSES", "").split(",") if word.isdecimal()]
if longest:
    trace(Pauses((number("PST_JITTER_SEED") * 16 + number("PST_WORKER")) * 16 + number("PST_BRANCH"), longest))
import_hidden()
