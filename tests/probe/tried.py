"""A probe built without proof, by `rt try`: what it answers to requests. One build answers all of them.

`rt try` hands on at most 1 MiB of what a run prints, so requests go in files of some thousands, each a case of its own."""
import re
import subprocess
import tempfile
from pathlib import Path

from lines import TOP

# (an answer is some four times as long as its request, and 300 bytes)
MOST = 700_000


def parts(requests):
    """The requests, in lists whose answers fit."""
    part, size = [], 0
    for it in requests:
        if part and size + 4 * len(it) + 300 > MOST:
            yield part
            part, size = [], 0
        part.append(it)
        size += 4 * len(it) + 300
    if part:
        yield part


def tried(requests, crate):
    """What a probe answers to each request, without any proof."""
    lists = list(parts(requests))
    with tempfile.TemporaryDirectory() as folder:
        for number, part in enumerate(lists):
            (Path(folder) / f"{number:04}").write_text("".join(f"{it}\n" for it in part))
        ran = subprocess.run(["rt", "try", "--steps", "1", "--cases", folder], cwd=TOP / "crates" / crate, stdin=subprocess.DEVNULL,
                             capture_output=True, text=True)
    answered = re.split(r"^== (\d{4})\n", ran.stdout, flags=re.M)[1:]
    lines = {int(number): [it for it in text.splitlines() if not it.startswith(("case=", "cases="))] for number, text in zip(answered[::2], answered[1::2])}
    for number, part in enumerate(lists):
        if len(lines.get(number, [])) != len(part):
            raise SystemExit(f"the probe could not be tried: {len(lines.get(number, []))} answers to {len(part)} requests, "
                             f"rt ended with {ran.returncode}\n{ran.stderr[-600:]}\n{ran.stdout[:300] if not lines else ''}")
    return [line for number in range(len(lists)) for line in lines[number]]
