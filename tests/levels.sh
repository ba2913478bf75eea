#!/bin/bash
# Compares the builds for the levels of processor (tests/test_levels.py), after building what is not
# built. The last line is 'N passed, M failed'.
"$(dirname "$0")/../package" --build
exec python3 "$(dirname "$0")/unit.py" test_levels
