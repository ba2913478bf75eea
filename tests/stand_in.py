"""Stand-ins: a toolchain that copies the builds for the packages, other tools, a processor."""

import os
import shutil

from program import ROOT, read, write

RT = """case $1 in doc | version) exec "{rt}" "$@" ;; esac
built={root}/crates/${{PWD##*/}}/out
mkdir -p out
case $1 in
    run) cp "$built/agep-$3" out/agep && cp "$built/agep-$3.o" out/agep.o ;;
    lib) [ "$2" != --cpu ] || cp "$built/$3.a" out/libagefile.a ;;
esac"""


def tools_but(folder, *hidden):
    """Makes a folder with links to all installed tools except these."""
    os.mkdir(folder)
    for place in filter(os.path.isdir, os.environ["PATH"].split(":")):
        for name in os.listdir(place):
            if name not in hidden and not os.path.lexists(f"{folder}/{name}"):
                os.symlink(f"{place}/{name}", f"{folder}/{name}")
    return os.environ | {"PATH": str(folder)}


def tool(path, script):
    """Makes a command of a script for sh."""
    with open(path, "w") as file:
        file.write(f"#!/bin/sh\n{script}\n")
    os.chmod(path, 0o755)


def processor(tree, file):
    """Makes the scripts of a tree find, in this file, a processor with all of x86-64-v4."""
    write(file, b"flags\t\t: fpu avx avx2 bmi1 bmi2 f16c fma abm movbe xsave avx512f avx512bw avx512cd avx512dq avx512vl\n")
    write(f"{tree}/share/build.sh", read(f"{tree}/share/build.sh").replace(b"/proc/cpuinfo", os.fsencode(file)))


def toolchain(folder, *hidden):
    """An environment in which the stand-in is the command rt, and these tools are hidden."""
    environment = tools_but(folder, "rt", *hidden)
    tool(f"{folder}/rt", RT.format(root=ROOT, rt=shutil.which("rt")))
    return environment
