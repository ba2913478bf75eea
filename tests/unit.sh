#!/bin/bash
# Runs the tests of tests/test_*.py that no other script runs, or those that the arguments name:
# files, classes or tests (tests/unit.py). The last line is 'N passed, M failed'.
exec python3 "$(dirname "$0")/unit.py" "$@"
