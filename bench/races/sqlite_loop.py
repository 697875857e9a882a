"""Drives two increases at once on a number in an SQLite file, as examples/clients/sqlite_counter.py --racy makes them: sqlite_loop.py FILE SECONDS."""
import sqlite3, sys, threading, time


class Counter:
    def __init__(self, file):
        self.file = sqlite3.connect(file, isolation_level=None, timeout=10, check_same_thread=False)
        self.file.execute("pragma synchronous = off")

    def reset(self):
        self.file.execute("drop table if exists counter")
        self.file.execute("create table counter as select 0 as n")

    def inc(self):
        n = self.file.execute("select n from counter").fetchone()[0] + 1
        self.file.execute("update counter set n = ?", (n,))
        return n


def drive_other():
    while True:
        barrier.wait()
        if is_over:
            return
        answers[1] = counters[1].inc()
        barrier.wait()


counters = [Counter(sys.argv[1]) for _ in range(2)]
answers, barrier, is_over = [0, 0], threading.Barrier(2), False
other = threading.Thread(target=drive_other)
other.start()
drives, failures, first, begun = 0, 0, -1, time.monotonic()
while time.monotonic() - begun < float(sys.argv[2]):
    counters[0].reset()
    barrier.wait()
    answers[0] = counters[0].inc()
    barrier.wait()
    drives += 1
    failures += answers[0] == answers[1]
    if failures and first < 0:
        first = time.monotonic() - begun
is_over = True
barrier.wait()
other.join()
print(drives, failures, f"{first:.3f}")
