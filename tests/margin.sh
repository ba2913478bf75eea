#!/bin/bash
# Checks that no proof is near a limit of the prover's searches: --margin halves these limits, so a
# goal that it leaves open may stay open with the next version of the toolchain.
# The last line is 'N passed, M failed': a crate passes if it is proved so.
#
# usage: tests/margin.sh [CRATE..]     these crates, or all
cd "$(dirname "$0")/../crates" || exit 1
passed=0
failed=0
every=$(sed -nE 's/^([a-z_0-9]+)[^:]*:.*/\1/p' ../crates.txt) || exit 1
for crate in ${@:-$every}; do
    if (cd "$crate" && exec rt check --margin); then
        passed=$((passed + 1))
    else
        failed=$((failed + 1))
    fi
done
echo "$passed passed, $failed failed"
[[ $failed -eq 0 ]]
