"""Gives options to `check` of pst_client.py: in two spellings, and those that it sets itself."""
import sys
from pst_client import check


class Values:
    def give_back(self, *values):
        return values


check(sys.argv[1], Values, trials=7, branches=3, workers=2, limit=50, **{"max-failures": 9, "max_failures": 1})
