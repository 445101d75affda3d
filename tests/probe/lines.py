"""The probes: what they answer to requests, and the files of vectors."""
import subprocess
from dataclasses import dataclass, field
from pathlib import Path

TOP = Path(__file__).resolve().parent.parent.parent
VECTORS = TOP / "tests/vectors"
# the programs that answer rows, by their folder of vectors
PROBES = {"replies": "test_probe_replies", "statements": "test_probe_statements", "connections": "test_probe_connections", "program": "test_calls"}

# What goes without saying in a file of vectors: all bytes are read, they are written as they were, and so on.
AS_IT_MUST_BE = ("rest=0", "made=same", "written=same", "again=same")


@dataclass
class Vector:
    """A request, the answer that is wanted, and what is said of the growths that it meets, if anything."""

    file: str
    line: int
    request: str
    wanted: list = field(default_factory=list)
    growths: str = ""

    def place(self):
        return f"{self.file}:{self.line}: {self.request[:70]}"


def vectors_of(path, name):
    """The vectors of a file: a request, and the lines below it that begin with two spaces."""
    found = []
    for number, line in enumerate(path.read_text().splitlines(), 1):
        if line.startswith("  growths "):
            found[-1].growths = line.strip()
        elif line.startswith("  "):
            found[-1].wanted += line.split()
        elif line and not line.startswith("#"):
            found.append(Vector(name, number, line))
    return found


def vectors(probe):
    """The vectors of a probe."""
    return [it for path in sorted((VECTORS / probe).glob("*.txt")) for it in vectors_of(path, f"{probe}/{path.name}")]


def built(probe):
    """The builds of a probe that rt ci leaves, by each compiler."""
    crate = PROBES[probe]
    program = TOP / "crates" / crate / "out" / crate
    second = program.with_name(f"{crate}.by-rattle")
    return [program, second] if second.exists() else [program]


def answers(program, requests, **how):
    """What a build of a probe answers to each request."""
    text = "".join(f"{it}\n" for it in requests)
    ran = subprocess.run([program], input=text, capture_output=True, text=True, **how)
    lines = ran.stdout.splitlines()
    if ran.returncode or len(lines) != len(requests):
        first = requests[len(lines)][:100] if len(lines) < len(requests) else ""
        raise SystemExit(f"the probe ended with {ran.returncode} after {len(lines)} of {len(requests)}, at {first}: {ran.stderr[:300]}")
    return lines


def plain(answer, request):
    """An answer without what goes without saying."""
    words = [it for it in answer.split() if it not in AS_IT_MUST_BE]
    # (the length, where it is that of the bytes)
    size = len(request.rsplit(" ", 1)[-1]) // 2
    return [it for it in words if it != f"len={size}" or "written=same" not in answer]


def differing(found, lines):
    """The vectors whose answers are not the wanted ones, as lines that say so."""
    pairs = [(it, plain(answer, it.request)) for it, answer in zip(found, lines)]
    return [f"{it.place()}\n  {' '.join(words)}\n  is not\n  {' '.join(it.wanted)}" for it, words in pairs if words != it.wanted]


def summary(name, passed, failures, most=20):
    for it in failures[:most]:
        print(f"{name}: {it}")
    print(f"{passed} passed, {len(failures)} failed")
    return 1 if failures else 0
