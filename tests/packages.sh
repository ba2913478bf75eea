#!/bin/bash
# Makes the packages, uses what is inside, and runs the tests of the packages for Python and Rust
# (tests/test_packages.py); makes a release in a scratch repository (tests/test_releases.py); lets
# each command of the scripts fail (tests/test_failing_commands.py). All run in parallel, on all
# processors, because the gate starts it last. The last line is 'N passed, M failed'.
"$(dirname "$0")/../package" --build # once, and not in each process
PACKAGES=$(mktemp -d) || exit 1
trap 'rm -rf "$PACKAGES"' EXIT
export PACKAGES AT_A_TIME=${AT_A_TIME:-$(nproc)}
python3 "$(dirname "$0")/unit.py" test_packages.Packages test_releases test_failing_commands \
    test_packages.{ForRust,LongForPython,ForPython,Chooser}
