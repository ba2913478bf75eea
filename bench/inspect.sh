#!/bin/bash
# Measures `agep inspect` on headers of 1, 4 and 16 MiB in four shapes: time, peak memory, system
# calls. It needs GNU time, and strace for the last two columns. On a busy machine the seconds on
# the clock are longer; the columns that end in "cpu" have the processor time.
set -eu
root=$(cd "$(dirname "$0")/.." && pwd -P)
agep=$root/crates/agep/out/agep
work=$(mktemp -d)
trap 'rm -rf "$work"' EXIT
cd "$work"

many_a=$(printf 'A%.0s' {1..43})
full_line=${many_a}AAAAAAAAAAAAAAAAAAAAA

# Copies of a text, in total at most SIZE bytes: copies TEXT SIZE.
copies() {
    local text=$1 size=$2 lines
    lines=$(printf "%s\n" "$text" | wc -l)
    yes -- "$text" | head -n $((size / (${#text} + 1) * lines))
}

# A header of a shape, of at most SIZE bytes: header SHAPE SIZE.
header() {
    local room=$(($2 - 22 - 48))
    echo age-encryption.org/v1
    case $1 in
    body)
        echo "-> a"
        copies "$full_line" $((room - 6))
        echo
        ;;
    x25519) copies "-> X25519 $many_a"$'\n'"$many_a" "$room" ;;
    stanzas) copies $'-> a\n' "$room" ;;
    words)
        printf -- '->'
        yes -- ' a' | head -n $(((room - 4) / 2)) | tr -d '\n'
        printf '\n\n'
        ;;
    esac
    echo "--- $many_a"
}

# The number of calls of a kind on a descriptor, or - if they cannot be counted: calls NAME
# DESCRIPTOR.
calls() {
    strace -o trace -e trace="$1" "$agep" inspect -H 16777216 <in >out 2>err && grep -c "^$1($2, " trace || echo -
}

timed() {
    /usr/bin/time -o times -f "$1" "$agep" inspect -H 16777216 "${@:2}" <in >out
    cat times
}

sum() {
    awk "BEGIN { printf \"%.2f\", $1 + $2 }"
}

"$root/agep" --version >/dev/null
printf '%-8s %10s %9s %8s %8s %8s %8s %10s %7s %6s %6s\n' \
    shape bytes stanzas seconds cpu '-r' '-r cpu' 'peak KiB' 'x size' reads writes
for shape in body x25519 stanzas words; do
    for mebibytes in 1 4 16; do
        header $shape $((mebibytes * 1048576)) >in
        read -r raw raw_user raw_system < <(timed '%e %U %S' -r)
        cmp -s in out || echo "-r printed another header" >&2
        read -r table user system peak < <(timed '%e %U %S %M')
        printf '%-8s %10d %9d %8s %8s %8s %8s %10d %7s %6s %6s\n' $shape "$(wc -c <in)" \
            "$(sed -n '2s/stanzas //p' out)" "$table" "$(sum "$user" "$system")" "$raw" "$(sum "$raw_user" "$raw_system")" \
            "$peak" "$(awk "BEGIN { printf \"%.1f\", $peak * 1024 / $(wc -c <in) }")" "$(calls read 0)" "$(calls write 1)"
    done
done
