# Functions that build the program and the library. Scripts source this file, with the repository's
# folder in `root`.
# shellcheck shell=sh disable=SC2046,SC2154

# The levels of processor for which the library and the packages' program contain builds, lowest
# first. Debian and most distributions require no more than x86-64.
levels="x86-64 x86-64-v3 x86-64-v4"

# Whether this machine's processor has all of a level: runs LEVEL. It is assumed to have x86-64-v2.
runs() {
    parts="avx avx2 bmi1 bmi2 f16c fma abm movbe xsave"
    case $1 in
        x86-64-v4) parts="$parts avx512f avx512bw avx512cd avx512dq avx512vl" ;;
        x86-64-v3) ;;
        *) return 0 ;;
    esac
    flags=" $(sed -n 's/^flags[^:]*: //p' /proc/cpuinfo 2>/dev/null | head -n 1) "
    for part in $parts; do
        case $flags in
            *" $part "*) ;;
            *) return 1 ;;
        esac
    done
}

# The level of processor to build for: AGEP_CPU if that is set, otherwise this machine's.
processor() {
    if [ -n "${AGEP_CPU:-}" ]; then
        echo "$AGEP_CPU"
    elif runs x86-64-v4; then
        echo x86-64-v4
    elif runs x86-64-v3; then
        echo x86-64-v3
    else
        echo x86-64-v2
    fi
}

# The words by which `rt` builds for a level. LLVM builds for all but x86-64-v4, for which the
# toolchain refuses it.
target() {
    echo "--cpu $1"
    [ "$1" != x86-64-v4 ] || echo "--backend rattle"
}

# The version of the toolchain, or nothing if there is none. `rt version` prints the same, but takes
# half a second.
toolchain() {
    rt=$(command -v rt) || return 0
    rt=$(readlink -f "$rt")
    cat "${rt%/*}/../KIT-ID" 2>/dev/null || rt version
}

# Whether a file exists, its mark has this text and the version of the installed toolchain, and no
# source is newer than the mark: is_current FILE MARK TEXT. If no toolchain is installed, the
# version is not compared. A folder is newer if a file in it was added or removed.
is_current() {
    [ -f "$1" ] && [ -f "$2" ] || return 1
    made_by=
    { read -r made_for && read -r made_by; } <"$2" || :
    [ "$made_for" = "$3" ] || return 1
    at_hand=$(toolchain)
    [ -z "$at_hand" ] || [ "$made_by" = "$at_hand" ] || return 1
    newer=$(find "$root/crates.txt" "$root"/crates/*/src "$root"/crates/*/specs \
        "$root"/crates/*/proofs -newer "$2" -print) && [ -z "$newer" ]
}

# Ends the script if the toolchain is missing: need_rt SCRIPT WHAT.
need_rt() {
    if ! command -v rt >/dev/null; then
        echo "$1: building the $2 needs the Rattle toolchain, the command rt" >&2
        exit 1
    fi
}

# Writes the mark of a build: a text and the version of the toolchain. The mark gets the time of the
# file BEGAN, which was made when the build started: mark MARK TEXT BEGAN.
mark() {
    { echo "$2" && toolchain; } >"$1"
    touch -r "$3" "$1"
}

# Replaces the line at the terminal that shows the work in progress. Without arguments, removes it.
show() {
    [ ! -t 2 ] || printf '\r\033[K%s' "$*" >&2
}

# Shows which libraries are being proved: those in the file `begun` that are not in `finished`.
show_work() {
    at_work=$(sort "$begun" "$finished" | uniq -u | paste -sd ' ')
    show ${at_work:+"proving $at_work"}
}

# Proves and builds a library: library NAME FLAG.. If that took some seconds, a line on standard
# error says so, and how many libraries are left: `finished` has a line for each one that is built.
# A failure is not reported here, because the build that needs the library fails too, and says why.
library() {
    name=$1
    shift
    start=$(date +%s)
    echo "$name" >>"$begun"
    show_work
    (cd "$root/crates/$name" && exec rt lib "$@") >/dev/null 2>&1 </dev/null || return
    echo "$name" >>"$finished"
    took=$(($(date +%s) - start))
    show
    [ "$took" -lt 3 ] || echo "proved $name in $took s, $((all - $(wc -l <"$finished"))) left" >&2
    show_work
}

# Ends the script and the proofs that it runs in the background, which do not get an interrupt.
stop_libraries() {
    for job in "$cipher" $words; do
        kill "$job" $(cat "/proc/$job/task/$job/children" 2>/dev/null) 2>/dev/null || :
    done
    rm -f "$finished" "$begun"
    exit 130
}

# Proves and builds the libraries up to age_file or up to age_cli, lowest first: libraries LAST. A
# run of `rt` waits for another run that uses the same lower library. So only those that share none
# are proved in parallel with the others: age_cipher, and age_job with age_args above it. The latter
# two must be done before age_commands, which also depends on age_job. Does nothing if this script
# has proved them before.
proved_to=
libraries() {
    [ "$proved_to" != age_cli ] && [ "$proved_to" != "$1" ] || return 0
    proved_to=$1
    finished=$(mktemp)
    begun=$(mktemp)
    all=6
    words=
    [ "$1" != age_cli ] || all=10
    library age_cipher --jobs 1 &
    cipher=$!
    if [ "$1" = age_cli ]; then
        { library age_job --jobs 2 && library age_args --jobs 2; } &
        words=$!
    fi
    trap stop_libraries INT TERM
    if library age_kdf && library age_header && wait "$cipher" && library age_recipient &&
        library age_stream && library age_file && [ -n "$words" ] && wait "$words"; then
        library age_commands && library age_cli || :
    fi
    wait
    rm -f "$finished" "$begun"
    trap - INT TERM
}

# The program, and its mark, which names the processor and the toolchain of its build, and has the
# time at which that build started.
program=$root/crates/agep/out/agep
built=$root/crates/agep/out/built

# Keeps a copy of the program for a processor, with its object and its mark, so that no level is
# built twice.
keep_level() {
    rm -f "$program-$1.o"
    [ ! -f "$program.o" ] || cp -p "$program.o" "$program-$1.o"
    cp -p "$program" "$program-$1"
    cp -p "$built" "$program-$1.built"
}

# Whether the program that was kept for a processor is current.
has_level() {
    is_current "$program-$1" "$program-$1.built" "$1"
}

# Makes the kept program for a processor the one in use. Fails if none was kept, or it is stale.
take_level() {
    has_level "$1" || return
    cp -p "$program-$1" "$program.$$"
    mv "$program.$$" "$program"
    cp -p "$program-$1.built" "$built"
}

# Proves the program, and builds it for a processor: build_program SCRIPT PROCESSOR. All output goes
# to standard error, and nothing is read from standard input.
build_program() {
    need_rt "$1" program
    echo "$1: building the program; its proofs are checked first, so a first build takes minutes" >&2
    if [ -d "$root/crates/age_kdf/out" ] && [ ! -f "$built" ]; then
        echo "$1: resuming a build that was interrupted" >&2
    fi
    seconds=$(date +%s)
    mkdir -p "${built%/*}"
    # A build that fails may leave a part of the program.
    rm -f "$built"
    : >"$built.began"
    libraries age_cli
    show proving agep
    if ! said=$(cd "$root/crates/agep" &&
        rt run $(target "$2") -- --version 2>&1 </dev/null); then
        show
        printf '%s\n' "$said" >&2
        echo "$1: the build failed" >&2
        exit 1
    fi
    mark "$built" "$2" "$built.began"
    keep_level "$2"
    show
    echo "$1: built for $2 in $(($(date +%s) - seconds)) s" >&2
}

# The version of the last release: the first heading of CHANGELOG.md that is a number.
released_version() {
    sed -n '/^## [0-9]/{ s/^## \([0-9.]*\).*/\1/p; q; }' "$root/CHANGELOG.md"
}

# The name by which programs find the shared library. A release that breaks a promise of an earlier
# one gets another number.
soname=libagefile.so.1

# Prints the pkg-config file, which gives PREFIX relative to its own folder: pkg_config_file LIBDIR.
pkg_config_file() {
    up=$(echo "$1/pkgconfig" | sed 's|[^/][^/]*|..|g')
    number=$(released_version)
    cat <<END
prefix=\${pcfiledir}/$up
libdir=\${prefix}/$1
includedir=\${prefix}/include

Name: agefile
Description: A proved library for the age v1 encrypted file format
Version: $number
Cflags: -I\${includedir}
Libs: -L\${libdir} -lagefile
END
}

crate=$root/crates/agefile

# Whether the library for a level is current.
has_library() {
    is_current "$crate/out/$1.a" "$crate/out/$1.built" "$1"
}

# Proves the library for C, and builds out/LEVEL.a for each level: build_library SCRIPT.
build_library() {
    for level in $levels; do
        ! has_library "$level" || continue
        need_rt "$1" library
        echo "$1: building the library for $level; its proofs are checked first" >&2
        mkdir -p "$crate/out"
        rm -f "$crate/out/$level.built"
        : >"$crate/out/built.began"
        libraries age_file
        if ! said=$(cd "$crate" && rt lib $(target "$level") 2>&1 </dev/null); then
            printf '%s\n' "$said" >&2
            echo "$1: the build failed" >&2
            exit 1
        fi
        cp "$crate/out/libagefile.a" "$crate/out/$level.a"
        mark "$crate/out/$level.built" "$level" "$crate/out/built.began"
    done
}

# Links the builds of build_library into the archive and the shared library, in a folder:
# link_library FOLDER. Both are made from one object, whose only global names are the functions of
# agefile.c. They call the builds, in which agefile_NAME is named x86_64_agefile_NAME,
# x86_64_v3_agefile_NAME and so on. Three functions of C that allocate come from the toolchain.
link_library() {
    parts=$1/parts
    mkdir -p "$parts"
    for level in $levels; do
        nm -g --defined-only "$crate/out/$level.a" >"$parts/symbols"
        prefix=$(echo "$level" | tr - _)
        sed -n "s/.* \(agefile_.*\)/\1 ${prefix}_\1/p" "$parts/symbols" >"$parts/names"
        objcopy --redefine-syms="$parts/names" "$crate/out/$level.a" "$parts/$level.a"
    done
    "${CC:-cc}" -O2 -fPIC -march=x86-64 -fno-stack-protector -c -o "$parts/calls.o" \
        "$root/bindings/c/agefile.c"
    "${CC:-cc}" -nostdlib -r -o "$parts/whole.o" "$parts/calls.o" \
        -Wl,--whole-archive "$parts"/x86-64*.a "$(dirname "$(rt doc)")/c/liblibc_c.a"
    objcopy --wildcard --keep-global-symbol='agefile_*' "$parts/whole.o" "$parts/agefile.o"
    rm -f "$1/libagefile.a"
    ar rcs "$1/libagefile.a" "$parts/agefile.o"
    echo "AGEFILE_${soname##*.} { global: agefile_*; local: *; };" >"$parts/names"
    "${CC:-cc}" -shared -o "$1/$soname" "$parts/agefile.o" -Wl,-soname,$soname \
        -Wl,--version-script="$parts/names" -Wl,--gc-sections -Wl,-z,relro,-z,now,-z,defs
    rm -r "$parts"
}
