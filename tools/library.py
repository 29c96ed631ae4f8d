#!/usr/bin/env python3
"""Builds the library, target/staticlib/libesfenruk.a, over the libraries that `rt ci` proved and left in crates/*/out.

Run it at the project's root, right after `rt ci`; the gate, `bash .ci/run`, does both. The crate esfenruk alone is proved once more. `rt lib`
in crates/esfenruk makes the same archive in a folder of its own, and first proves each library below it again, one after the other, since it
takes nothing from `rt ci`.
"""
import argparse
import os
import subprocess
import sys

NAME = "esfenruk"


def libraries():
    """What each crate of crates.txt rests on."""
    with open("crates.txt", encoding="utf-8") as file:
        lines = [line.partition("#")[0].strip() for line in file]
    rows = [line.partition(":") for line in lines if line]
    return {name.split()[0]: uses.split() for name, _, uses in rows}


def below(crate, uses):
    """The crates below one, without those of the kit."""
    found = {name for name in uses[crate] if name in uses}
    return found.union(*(below(name, uses) for name in found))


def main():
    kit = os.path.dirname(subprocess.check_output(["rt", "doc"], text=True).strip())
    asked = argparse.ArgumentParser(description="Builds the library over what rt ci proved.")
    asked.add_argument("archive", nargs="?", default=f"target/staticlib/lib{NAME}.a", help="where to write it; if not told otherwise %(default)s")
    asked.add_argument("--toolchain", default=f"{kit}/toolchain", help="the folder of the compiler; if not told otherwise the kit's")
    asked = asked.parse_args()
    uses = libraries()
    folder = {name: os.path.abspath(f"crates/{name}/out/rlib") for name in below(NAME, uses)}
    missing = sorted(name for name in folder if not os.path.isdir(f"{folder[name]}/{name}.rlib"))
    if missing:
        names = ", ".join(missing)
        sys.exit(f"library.py: nothing is built of {names}\nRun `bash .ci/run`, which builds the library too, or `rt ci` and then this again.")
    words = [f"{kit}/bin/rattle", "build", "--crate-name", NAME, "src/lib.rt", "--crate-type", "staticlib"]
    words += ["--extern", f"std={kit}/rlibs/std.rlib", "-L", f"dependency={kit}/rlibs"]
    for name in sorted(folder):
        words += ["--extern", f"{name}={folder[name]}/{name}.rlib"] if name in uses[NAME] else ["-L", f"dependency={folder[name]}"]
    words += ["--antt-project", f"{kit}/rattle/logic/antt-project.json", "--logic-built", f"{kit}/logic_built"]
    words += ["--toolchain", os.path.abspath(asked.toolchain), "--backend", "llvm", "--jobs", "1", "-o", os.path.abspath(asked.archive)]
    os.makedirs(os.path.dirname(os.path.abspath(asked.archive)), exist_ok=True)
    sys.exit(subprocess.call(words, cwd=f"crates/{NAME}"))


main()
