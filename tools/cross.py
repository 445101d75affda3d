#!/usr/bin/env python3
"""Builds a static library for another processor: the check of its crate for that target, over the libraries below it as they were proved
here, and the archive of what was checked.

cross.py CRATE MACHINE ARCHIVE"""
import subprocess
import sys
import tempfile
from pathlib import Path

import gate
from libraries import TOP


def main(name, machine, archive):
    rt = gate.loaded()
    crate = next(it for it in rt.rtlib.crates_below(str(TOP)) if it.name == name)
    lacking = [it.name for it in crate.below() if not Path(it.rlib).exists()]
    if lacking:
        print(f"cross.py: not built: {', '.join(lacking)}", file=sys.stderr)
        return 1
    words = crate.words(["--jobs", str(min(4, rt.processors()))], keeps=False) + ["--target", f"{machine}-unknown-linux-gnu"]
    built = [*words]
    for flag in ("--logic-built", "--jobs"):
        at = built.index(flag)
        built = [*built[:at], *built[at + 2 :]]
    with tempfile.TemporaryDirectory(prefix="cross-") as folder, open(f"{folder}/said", "w+") as said:
        built += ["--crate-checked", f"{folder}/checked", "--toolchain", f"{rt.KIT}/toolchain", "--backend", "llvm"]
        for command in (["check", *words, "-o", f"{folder}/checked"], ["build", *built, "-o", archive]):
            if subprocess.run([rt.rtlib.RATTLE, *command], cwd=crate.folder, stdin=subprocess.DEVNULL, stdout=said, stderr=said).returncode:
                said.seek(0)
                sys.stderr.write(said.read())
                return 1
    return 0


if __name__ == "__main__":
    sys.exit(main(*sys.argv[1:]))
