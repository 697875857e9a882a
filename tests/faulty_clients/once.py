#!/usr/bin/env python3
# answers one line and ends
print(input() and 0)
