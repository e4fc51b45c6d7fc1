"""Runs all tests of the packages."""

import sys

import contents
import counter
import linking
import pages
import receipts
import unpacked

someone = counter.Counter()
try:
    places = contents.run(someone)
    for tests in (unpacked, linking, pages):
        tests.run(someone, places)
    receipts.run(someone)
finally:
    someone.leave()
print(f"{someone.passed} passed, {someone.failed} failed")
sys.exit(0 if someone.failed == 0 and someone.passed > 0 else 1)
