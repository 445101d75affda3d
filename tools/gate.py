#!/usr/bin/env python3
"""Runs rt ci, with its checks in an order that leaves no processor idle; and beside the last proofs the mutants, and the parts of ./check
that prove nothing in this checkout. What it writes and its last line are rt ci's own.

gate.py [FOLDER [PART ..]]: a part is a line 'NAME COMMAND CRATE ..', and is run once these crates are built. FOLDER/NAME gets what it
wrote, and FOLDER/NAME.ended how many seconds it took and its status; FOLDER/mutants what came of the mutants, as mutants.py says it.
Without FOLDER no mutant is tried.

rt ci gives a check the processors that are idle when it begins, and begins none for which it reckons that memory could run short: where
most crates wait for one library, most processors wait too, and the longest chain of crates ends alone. Here as many checks run at a
time as there are processors, where memory allows, those with the longest chain after them first. A check is put to two processors
where its chain is a twentieth more than a processor's share of all that is left, also where one alone is idle, and to more where
they would be idle. Elsewhere that would not pay: a check on two processors takes a quarter to a third more of them in all.

Each check, what it reads, and what counts as proved or kept are rt's own: what is replaced is the function that orders the checks. A
static library's check also records its verdict, of which the compiler then makes the archive that a part takes: it compares what it builds
with what was proved. Where rt keeps that proof from an earlier run, the library alone is proved once more for it. This is written for two
rts, by their checksums: with any other, rt ci runs as it is, and the mutants and the parts follow."""
import fcntl
import hashlib
import importlib.machinery
import importlib.util
import os
import shutil
import subprocess
import sys
import tempfile
import time
from concurrent.futures import FIRST_COMPLETED, ThreadPoolExecutor, wait
from pathlib import Path

import mutants
from libraries import TOP, below, crates

# the rts that this is written for: that of rattle-kit-13b, and that of rattle-kit-13f, which keeps proofs
RT = {
    "rt": {
        "a29960395884d54b18725ad44ad89e0f82549f67150763bf576db274e11439c6",
        "80bcb2d5aef7205688dd85a279ba826502bb88dcc037e860a256d3963c92d37f",
    },
    "rtlib.py": {"4a12f3c5badcbef95b02ce10e5a270c6bfa7318c8bbf46eea97d0f86c02889dd"},
}
# what a check may take of memory, in bytes: most take 2 GB, and the largest 3.5 GB
CHECK = 4 << 30
# tasks that are no checks of rt ci, and how much work each is, as work() reckons that of a check
BESIDE = {"mutants": 500, "part": 300}
# what a check takes to read a library below its crate, in lines of source
READ = 100
# a check whose chain is so much more than a processor's share of what is left would end last
LATE = 1.05


def is_known():
    """Whether rt is one that this is written for."""
    folder = Path(os.path.realpath(shutil.which("rt"))).parent
    files = {name: folder / name for name in RT}
    return all(it.exists() and hashlib.sha256(it.read_bytes()).hexdigest() in RT[name] for name, it in files.items())


def loaded():
    """rt, as a module."""
    loader = importlib.machinery.SourceFileLoader("rt", os.path.realpath(shutil.which("rt")))
    made = importlib.util.module_from_spec(importlib.util.spec_from_loader("rt", loader))
    sys.modules["rt"] = made
    loader.exec_module(made)
    return made


def work(key, lines):
    """How much work a task is: a check, by the lines of its crate's source, three times as much for a program, which owns what it calls
    for, and is built by two compilers besides; and by the libraries that it reads."""
    if not lines or key[1] not in ("proof", "tests"):
        return BESIDE.get(key[1], lines)
    source = TOP / "crates" / key[0] / "src"
    own = sum(it.read_bytes().count(b"\n") for it in source.rglob("*.rt"))
    return own * (3 if (source / "main.rt").exists() else 1) + READ * (1 + len(below(key[0], crates())))


def chains(tasks, own):
    """How much work stands from the beginning of each task to the end of the last one that waits for it."""
    chain = dict.fromkeys(tasks, 0)
    # (a task comes after those that it waits for)
    for key in reversed([*tasks]):
        chain[key] += own[key]
        for it in tasks[key][0]:
            chain[it] = max(chain[it], chain[key])
    return chain


def in_lanes(tasks, processors, memory):
    """Runs tasks side by side, each once those that it waits for have ended, and gives what each gave. A task is what it waits for, its
    work in lines, its memory, and a call that gets what was given and how many processors it may use."""
    own = {key: work(key, it[1]) for key, it in tasks.items()}
    chain = chains(tasks, own)
    lanes = max(1, min(processors, memory // CHECK))
    left, running, given = sorted(tasks, key=lambda it: (it[1] in BESIDE, -chain[it])), {}, {}
    with ThreadPoolExecutor(len(tasks)) as pool:
        while left or running:
            ready = [it for it in left if all(lower in given for lower in tasks[it][0])]
            # (mutants and parts take what is left over)
            waiting = sum(own[it] > 0 for it in ready if it[1] not in BESIDE)
            for key in ready:
                # (a check on several processors leaves one idle at its beginning and its end)
                idle = lanes - sum(jobs - (jobs > 1) / 2 for _, jobs in running.values())
                # (what has no work ends at once)
                if idle > 0 or not own[key]:
                    jobs = 1
                    if own[key] > 0 and key[1] not in BESIDE:
                        waiting -= 1
                        # (of what runs half is done)
                        rest = sum(own[it] for it in left) + sum(own[it] for it, _ in running.values()) / 2
                        is_late = chain[key] * lanes > LATE * rest
                        jobs = max(1, min(4, int(idle) - waiting), min(2, lanes) * is_late)
                    left.remove(key)
                    running[pool.submit(tasks[key][3], given, jobs)] = key, jobs * (own[key] > 0)
            for it in wait(running, return_when=FIRST_COMPLETED).done:
                given[running.pop(it)[0]] = it.result()
    return given


def with_mutants(tasks, found):
    """The tasks, and last one for the mutants of each library, which adds what came of them to a list."""
    listed = crates()

    def tried(name):
        try:
            found.extend(mutants.tried(name, listed))
        except (SystemExit, subprocess.CalledProcessError) as error:
            found.append((name, False, f"its mutants were not tried: {error}"))

    for name in mutants.with_mutants(listed):
        waits = [(it, "proof") for it in below(name, listed) if (it, "proof") in tasks]
        tasks[name, "mutants"] = waits, 1, CHECK, lambda given, jobs, it=name: tried(it)
    return tasks


class Part:
    """A part of ./check, and where it writes."""

    def __init__(self, line, folder):
        self.name, self.command, *self.crates = line.split()
        self.said = Path(folder) / self.name
        # (as they are when the gate begins)
        self.sources = {it: subprocess.check_output([TOP / "tools/sources.sh", it]) for it in self.crates}

    def is_ready(self):
        """Whether all is there that it takes: what a check builds."""
        outs = {it: TOP / "crates" / it / "out" for it in self.crates}
        return all((out / it).exists() or (out / f"{it}.a").exists() for it, out in outs.items())

    def run(self):
        began = time.time()
        for name, lines in self.sources.items():
            for built in (TOP / "crates" / name / "out" / it for it in (name, f"{name}.a")):
                if built.exists():
                    built.with_name(f"{built.name}.sources").write_bytes(lines)
        with open(self.said, "w") as out:
            ran = subprocess.run([TOP / self.command], stdin=subprocess.DEVNULL, stdout=out, stderr=subprocess.STDOUT)
        self.said.with_name(f"{self.name}.ended").write_text(f"{time.time() - began:.0f} {ran.returncode}\n")


def with_parts(tasks, parts):
    """The tasks, and one for each part, which is left for later where a crate was not built."""
    for part in parts:
        waits = [(it, "proof") for it in part.crates if (it, "proof") in tasks]
        tasks[part.name, "part"] = waits, 1, CHECK, lambda given, jobs, it=part: it.is_ready() and it.run()
    return tasks


def with_archive(rt, crate, words, prove):
    """Proves a static library by rt's check of it, which records its verdict too, and has the compiler make out/NAME.a of what was proved.
    The answer is the check's, whatever comes of the archive."""
    archive = Path(crate.folder) / "out" / f"{crate.name}.a"
    archive.unlink(missing_ok=True)
    with tempfile.TemporaryDirectory(prefix="gate-proved-") as folder:
        status = prove(crate, [*words, "-o", f"{folder}/checked"])
        if status == 0:
            words = words[1:]
            for flag in ("--logic-built", "--jobs"):
                at = words.index(flag)
                words = [*words[:at], *words[at + 2 :]]
            build = [rt.rtlib.RATTLE, "build", *words, "--crate-checked", f"{folder}/checked", "--toolchain", f"{rt.KIT}/toolchain", "--backend", "llvm"]
            subprocess.run([*build, "-o", archive], cwd=crate.folder, stdin=subprocess.DEVNULL, stdout=subprocess.DEVNULL, stderr=subprocess.DEVNULL)
    return status


def with_lacking_archives(rt, taken, prove):
    """Makes the archives that are not there after rt ci has passed, since it kept their proofs. What it leaves of the libraries below has no
    stamp, so rt lib would prove each of them once more."""
    for crate in rt.rtlib.crates_below(str(TOP)):
        out = Path(crate.folder) / "out"
        if crate.is_static and crate.name in taken and not (out / f"{crate.name}.a").exists() and all(Path(it.rlib).exists() for it in crate.below()):
            with tempfile.TemporaryFile("w+") as crate.out:
                with_archive(rt, crate, ["check", *crate.words(["--jobs", str(min(4, rt.processors()))], keeps=False)], prove)


def main(folder=None, *lines):
    parts, found = [Part(it, folder) for it in lines], None
    if is_known():
        rt, taken = loaded(), {crate for part in parts for crate in part.crates}
        proved = rt.Crate.prove

        def prove(crate, words, *more):
            if not crate.is_static or crate.name not in taken or words[0] != "check" or more:
                return proved(crate, words, *more)
            return with_archive(rt, crate, words, proved)

        def ordered(tasks):
            nonlocal found
            found = []
            return in_lanes(with_mutants(with_parts(tasks, parts), found) if folder else tasks, rt.processors(), rt.free())

        held, locked = [], rt.rtlib.lock

        def lock(crates):
            held.extend(locked(crates))
            return held

        rt.in_lanes, rt.Crate.prove, rt.rtlib.lock = ordered, prove, lock
        status = rt.main(["ci"])
        if status == 0:
            with_lacking_archives(rt, taken, proved)
        # (a part that is left may call rt, which would wait for these folders for ever)
        for it in held:
            fcntl.flock(it, fcntl.LOCK_UN)
    else:
        print("gate: this rt is not the one that the order is written for, so rt ci runs as it is", flush=True)
        status = subprocess.run(["rt", "ci"], cwd=TOP, stdin=subprocess.DEVNULL).returncode
    if folder:
        with ThreadPoolExecutor() as pool:
            for part in parts:
                if not part.said.exists():
                    pool.submit(part.run)
        if found is None and status == 0:
            found = mutants.tried_all()
        with open(Path(folder) / "mutants", "w") as out:
            mutants.summary(found or [], out)
    return status


if __name__ == "__main__":
    sys.exit(main(*sys.argv[1:]))
