#!/usr/bin/env python3
"""A client of @NAME@.model. Call your own object in place of this class. A method has the name of its operation.

Each reset makes a new `System()`, in the initial state of the model. For a server use `pst new NAME --server`.
"""
import threading
from pst_client import serve


class System:
    def __init__(self):
        self.number = 0
        self.lock = threading.Lock()

    def add(self, n):
        with self.lock:  # with `threading.Lock()` in place of `self.lock` a campaign finds a race
            number = self.number + n
            self.number = number
            return number

    def get(self):
        return self.number


serve(System)
