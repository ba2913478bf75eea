#!/bin/bash
# Builds and installs the library for C, and runs it from C (tests/test_library.py). The arguments
# name the classes or tests to run. The last line is 'N passed, M failed'.
exec python3 "$(dirname "$0")/unit.py" "${@:-test_library}"
