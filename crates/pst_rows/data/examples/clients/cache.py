#!/usr/bin/env python3
"""A client of examples/cache.model in one process (--shared): a set under a lock, or without one (--racy)."""
import contextlib, sys, threading
from pst_client import serve


class Cache:
    def __init__(self, lock):
        self.lock = lock
        self.kept = set()

    def add(self, key):
        with self.lock:
            if key in self.kept:
                return False
            self.kept.add(key)
            return True

    def has(self, key):
        return key in self.kept

    def clear(self):
        return self.kept.clear() is None


locked = lambda: Cache(threading.Lock())
racy = lambda: Cache(contextlib.nullcontext())
if __name__ == "__main__":
    serve(racy if "--racy" in sys.argv else locked)
