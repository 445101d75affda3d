"""The crates of crates.txt, and their libraries as rt ci or rt lib builds them."""
import subprocess
from pathlib import Path

TOP = Path(__file__).resolve().parent.parent


def crates():
    """The crates of crates.txt, each with what it stands on."""
    lines = [line.partition("#")[0].partition(":") for line in (TOP / "crates.txt").read_text().splitlines()]
    return {head.split()[0]: words.split() for head, _, words in lines if head.strip()}


def below(name, listed):
    """The libraries of the repository below a crate."""
    own = [it for it in listed[name] if it in listed]
    return {*own, *(lower for it in own for lower in below(it, listed))}


def build(name, listed):
    """Builds the libraries below a crate, but those that rt ci left since their sources changed: these have no stamp."""
    for it in sorted(below(name, listed), key=lambda lower: len(below(lower, listed))):
        crate = TOP / "crates" / it
        made = crate / "out/rlib"
        sources = [file.stat().st_mtime for part in ("src", "specs") for file in (crate / part).rglob("*.*t")]
        if not made.exists() or (made / "stamp").exists() or made.stat().st_ctime < max(sources):
            # (it does nothing where the stamp is that of the sources)
            subprocess.run(["rt", "lib"], cwd=crate, stdin=subprocess.DEVNULL, stdout=subprocess.DEVNULL, check=True)
