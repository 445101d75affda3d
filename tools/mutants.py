#!/usr/bin/env python3
"""Tries the mutants of the libraries: the prover must refuse each, by the name of the function that it changes.

mutants.py [CRATE ..]

A mutant is a file crates/NAME/mutants/*.edit: a line 'fn: NAME' with the function as a check names it, and then, for each
file that it changes, a line 'file: src/FILE.rt' and pairs of lines 'old: TEXT' and 'new: TEXT'. Each old text stands in
that file exactly once.

A function is proved from the contracts of what it calls. So all mutants of a library stand in one copy of it, and one check
asks for their functions alone: each must be said to be not proved, by a goal. That it calls a function which is not proved is no
refusal, and neither is a proof by hand that no longer fits: it shows that this proof fails, and not that there is none. At most one
mutant changes a function, and none a constant or a type.

The libraries below are those that rt ci leaves, or are built. The last line counts what passed and failed."""
import os
import re
import shutil
import subprocess
import sys
import tempfile
import time
from concurrent.futures import ThreadPoolExecutor
from pathlib import Path

from libraries import TOP, below, build, crates

LINE = re.compile(r"^fn \w+::(\S+): (.*)$", re.M)


class Mutant:
    """A file of a mutant: its function, and the texts that it replaces."""

    def __init__(self, path):
        self.name, self.function, self.changes = path.stem, "", []
        file = old = None
        for line in path.read_text().splitlines():
            key, _, text = line.partition(": ")
            if key == "fn":
                self.function = text
            elif key == "file":
                file = text
            elif key == "old":
                old = text
            elif key == "new" and file and old:
                self.changes.append((file, old, text))
            else:
                raise SystemExit(f"{path}: a line that does not fit: {line}")

    def put_into(self, copy):
        """Changes the texts of a copy of the library. The answer is why it can't be applied, or no text."""
        for file, old, new in self.changes:
            text = (copy / file).read_text()
            if text.count(old) != 1:
                return f"its old text stands {text.count(old)} times in {file}: {old.strip()}"
            (copy / file).write_text(text.replace(old, new))
        return ""


def words(name, listed, functions):
    """The check of these functions of a crate alone, in a copy of it beside its libraries."""
    page = subprocess.run(["rt", "doc"], capture_output=True, text=True, check=True).stdout.strip()
    kit = os.path.dirname(page)
    library = {it: Path(f"libraries/{it}/{it}.rlib") for it in below(name, listed)}
    command = [f"{kit}/bin/rattle", "check", "--crate-name", name, "src/lib.rt", "-L", f"dependency={kit}/rlibs"]
    for it in ["std", *listed[name]]:
        command += ["--extern", f"{it}={library.get(it, f'{kit}/rlibs/{it}.rlib')}"]
    for it in library.values():
        command += ["-L", f"dependency={it.parent}"]
    command += ["--antt-project", f"{kit}/rattle/logic/antt-project.json", "--logic-built", f"{kit}/logic_built", "--links", f"{name}="]
    return command + ["--jobs", "1"] + [word for it in functions for word in ("--only", it)]


def verdict(mutant, said, text):
    """Whether a mutant is refused, and what is said of its function: a goal that the search did not prove."""
    line = said.get(mutant.function)
    if line is None:
        first = re.search(r"^.*error.*$", text, re.M)
        return False, f"the check says nothing of {mutant.function}: {first[0] if first else text[-300:]}"
    if line.startswith(("not proved", "no proof")):
        goals = re.search(r"did not prove ((?:`[^`]*`(?:, )?)+)", line)
        if goals:
            return True, f"{mutant.function} does not meet {goals[1].rstrip(', ')}"
        for error in re.findall(rf"^(?:\./)?proofs/{mutant.function.replace('::', '/')}/\w+\.antt:.*?error: (.*)$", text, re.M):
            return False, f"no goal refuses it; the proof by hand of {mutant.function} fails: {error}"
    return False, f"{mutant.function}: {line}"


def with_mutants(listed):
    """The crates that have mutants."""
    return [it for it in listed if any((TOP / "crates" / it / "mutants").glob("*.edit"))]


def tried(name, listed):
    """What came of the mutants of a crate: their names, whether each is refused, and why."""
    build(name, listed)
    began = time.time()
    mutants = [Mutant(it) for it in sorted((TOP / "crates" / name / "mutants").glob("*.edit"))]
    if len({it.function for it in mutants}) < len(mutants):
        raise SystemExit(f"mutants: two of {name} change one function")
    with tempfile.TemporaryDirectory(prefix="mutants-") as folder:
        copy = Path(folder)
        for part in ("src", "specs", "proofs"):
            if (TOP / "crates" / name / part).is_dir():
                shutil.copytree(TOP / "crates" / name / part, copy / part)
        # (rt ci may put other builds of the libraries in their places when it ends)
        for it in below(name, listed):
            shutil.copytree(TOP / "crates" / it / "out/rlib", copy / "libraries" / it)
        unfit = {it.name: it.put_into(copy) for it in mutants}
        ran = subprocess.run(words(name, listed, [it.function for it in mutants]), cwd=copy, capture_output=True, text=True, errors="replace")
    text = ran.stdout + ran.stderr
    said = dict(LINE.findall(text))
    found = [(it.name, *((False, unfit[it.name]) if unfit[it.name] else verdict(it, said, text))) for it in mutants]
    print(f"{name}: {sum(ok for _, ok, _ in found)} of {len(found)} mutants refused in {time.time() - began:.0f} s", flush=True)
    return [(f"{name}/{mutant}", ok, why) for mutant, ok, why in found]


def tried_all(*names):
    """What came of the mutants of these crates, or of all."""
    listed = crates()
    chosen = names or with_mutants(listed)
    with ThreadPoolExecutor(len(os.sched_getaffinity(0))) as pool:
        return [it for outcome in pool.map(lambda name: tried(name, listed), chosen) for it in outcome]


def summary(found, out):
    """Writes what came of mutants, and last how many passed and failed. The answer is whether none failed."""
    for name, is_refused, why in sorted(found):
        print(f"{name}: {'refused' if is_refused else 'NOT REFUSED'}: {why[:200]}", file=out)
    failed = sum(not ok for _, ok, _ in found)
    print(f"{len(found) - failed} passed, {failed} failed", file=out)
    return found and not failed


if __name__ == "__main__":
    sys.exit(0 if summary(tried_all(*sys.argv[1:]), sys.stdout) else 1)
