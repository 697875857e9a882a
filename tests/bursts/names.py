#!/usr/bin/env python3
"""Names that branches claim, for tests/bursts.py: in this process (--shared), or in memory of several. A claim looks and stores at once, or not (--racy)."""
import contextlib, fcntl, mmap, os, pathlib, sys, tempfile, threading

sys.path.insert(0, str(pathlib.Path(__file__).resolve().parents[2] / "examples/clients"))
from pst_client import Unknown, serve, serve_branch


class Names:
    """Names of one letter, a byte each."""
    calls = 0

    def __init__(self, names, lock):
        self.names, self.lock = names, lock

    def claim(self, name):
        with self.lock:
            if self.names[ord(name)]:
                return False
            self.names[ord(name)] = 1
            return True

    def claimed(self, name):
        return bool(self.names[ord(name)])

    def reset(self):
        if os.environ["PST_BRANCH"] == "1":
            self.names[:] = bytes(256)

    def count(self):
        Names.calls += 1
        return Names.calls

    def text(self, size):
        return size * "x"

    def fail(self):
        raise ValueError("as asked")

    def unknown(self):
        raise Unknown("as asked")

    def end(self):
        os._exit(3)


class FileLock:
    def __enter__(self):
        fcntl.lockf(file, fcntl.LOCK_EX)

    def __exit__(self, *_):
        fcntl.lockf(file, fcntl.LOCK_UN)


is_racy = "--racy" in sys.argv
if "PST_PIPES" in os.environ:
    serve(lambda: Names(bytearray(256), contextlib.nullcontext() if is_racy else threading.Lock()))
else:
    file = open(f"{tempfile.gettempdir()}/names-{os.environ['PST_WORKER']}", "a+b")
    file.truncate(256)
    names = Names(mmap.mmap(file.fileno(), 256), contextlib.nullcontext() if is_racy else FileLock())
    serve_branch({name: getattr(names, name) for name in dir(names)})
