"""Runs all tests of the command."""

import sys

import comparing
import documents
import first
import forms
import lasting
import looking
import naming
import noise
import person
import readable
import showing
import streams
import usual
import versions
import zoned

someone = person.Person()
try:
    for tests in (usual, lasting, comparing, looking, zoned, forms, showing, readable, naming, streams, noise, versions, first, documents):
        tests.run(someone)
finally:
    someone.leave()
print(f"{someone.passed} passed, {someone.failed} failed")
sys.exit(0 if someone.failed == 0 and someone.passed > 0 else 1)
