"""Tests the caches of cache.py: python3 -m unittest test_cache, or pytest."""
import pathlib, unittest
from cache import locked, racy
from pst_client import check

MODEL = pathlib.Path(__file__).parents[1] / "cache.model"


class CacheTest(unittest.TestCase):
    def test_locked(self):
        check(MODEL, locked)

    def test_racy(self):
        """Fails, with the race as its message."""
        check(MODEL, racy, trials=40, repeats=20)
