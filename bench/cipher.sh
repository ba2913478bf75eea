#!/usr/bin/env bash
# Builds cipher_bench for a level of processor, and counts the instructions that the compiler made
# of the loops of ChaCha20 and Poly1305: status 1 if they are not those expected. Usage:
# bench/cipher.sh [CPU]. CPU is a level such as x86-64-v3; without it AGEP_CPU or this machine's.
set -euo pipefail
root=$(cd "$(dirname "$0")/.." && pwd -P)
source "$root/share/build.sh"
cpu=${1:-$(processor)}
cd "$root/crates/cipher_bench"

# For each level its widest register, the shifts or rotations of ChaCha20 on such registers and the
# most vectors that its loop stores on the stack, the same for the multiplications of Poly1305, and
# how many of the two functions must align the stack to such a register. If these do not hold, the
# code is slower: the compiler no longer sees that factors have 32 bits (three times the
# multiplications), takes narrower registers, needs more registers than there are, or stores vectors
# across two cache lines. The system aligns the stack to 16 bytes, which is enough for xmm.
expected="x86-64 xmm 128 160 300 70 0
x86-64-v2 xmm 64 170 300 70 0
x86-64-v3 ymm 32 50 150 40 2
x86-64-v4 zmm 32 4 75 16 2"

# Prints the five numbers of cipher_bench for a register: counts REGISTER. ChaCha20's loop has all
# its shifts, Poly1305's loop the first two thirds of its multiplications; each is in one function.
counts() {
    objdump -d --no-show-raw-insn out/cipher_bench | awk -v wide="%$1" '
        /^[0-9a-f]+ <.*>:$/ { name = $2 }
        /and +\$0xf+(e0|c0),%rsp/ { aligned[name] = 1 }
        /mov[a-z0-9]* +%[xyz]mm[0-9]+,[^ ]*\(%r[sb]p/ { stores[name]++ }
        index($0, wide) && /pslld|prold/ { note("shifts") }
        index($0, wide) && /pmuludq/ { note("products") }
        function note(what) {
            before[what, name, ++count[what, name]] = stores[name] + 0
            if (count[what, name] > most[what]) {
                most[what] = count[what, name]
                place[what] = name
            }
        }
        function stored(what, last) {
            return before[what, place[what], last] - before[what, place[what], 1]
        }
        END {
            print most["shifts"] + 0, stored("shifts", most["shifts"]),
                most["products"] + 0, stored("products", int(most["products"] * 2 / 3)),
                aligned[place["shifts"]] + aligned[place["products"]]
        }'
}

if ! row=$(grep "^$cpu " <<<"$expected"); then
    echo "no numbers for $cpu" >&2
    exit 1
fi
# shellcheck disable=SC2046
if ! said=$(rt run $(target "$cpu") -- seal 65536 1 7 2>&1); then
    echo "$said" >&2
    exit 1
fi
read -r _ wide shifts stores products more_stores aligned <<<"$row"
read -ra found < <(counts "$wide")
echo "ChaCha20: ${found[0]} shifts, ${found[1]} stores"
echo "Poly1305: ${found[2]} multiplications, ${found[3]} stores"
echo "the stack is aligned in ${found[4]}"
if ((found[0] != shifts || found[1] > stores || found[2] != products || found[3] > more_stores ||
    found[4] < aligned)); then
    echo "expected $shifts, at most $stores, $products, at most $more_stores, $aligned: slower" >&2
    exit 1
fi
