#!/usr/bin/env python3
"""Holds pages to the code that they quote and name.

The quoted blocks of a file in docs/CONTRIBUTING.md are the whole file, in order. Each line of the tour in README.md is a
line of the file whose calls a row makes, and each line of a block of Rust in docs/USING.md a line of the proved callers, or of the file that
the block names. Each line of an example in a doc comment is a line of a test, a recipe or a probe. Each name of docs/PROVED.md stands in the libraries, and each file and type of docs/PROTOCOL.md.
Each name in the code of any page stands somewhere in the sources.

quoted_lines.py: the status is 0 where all of this is so.
"""
import os
import re
import subprocess
import sys

TOP = os.path.dirname(os.path.dirname(os.path.realpath(__file__)))
PAGE = "docs/CONTRIBUTING.md"
CRATE = "crates/example_packet"
BLOCK = re.compile(r"^```\w+ (crates/\S+)\n(.*?)^```$", re.MULTILINE | re.DOTALL)
TOUR = re.compile(r"^```rust\n(.*?)^```$", re.MULTILINE | re.DOTALL)
TOUR_CALLS = "crates/test_calls/src/tour.rt"
DOC_EXAMPLE = re.compile(r"^\s*//[/!] ```\n((?:\s*//[/!].*\n)*?)\s*//[/!] ```$", re.MULTILINE)
CALLERS = "crates/examples_proved/src"
USING = "docs/USING.md"


def lines(text):
    """The lines that are not empty."""
    return [line for line in text.splitlines() if line.strip()]


def quoted(page):
    """The lines that are quoted of each file."""
    found = {}
    for path, text in BLOCK.findall(page):
        found.setdefault(path, []).extend(lines(text))
    return found


def sources():
    """The files of the crate that are quoted."""
    for part in ("src", "specs", "mutants"):
        for name in sorted(os.listdir(f"{TOP}/{CRATE}/{part}")):
            yield f"{CRATE}/{part}/{name}"


def read(path):
    with open(f"{TOP}/{path}", encoding="utf-8", errors="replace") as file:
        return file.read()


def strange_in_the_tour():
    """The lines of the tour that no test calls."""
    tested = {line.strip() for line in lines(read(TOUR_CALLS))}
    shown = [line.strip() for text in TOUR.findall(read("README.md")) for line in lines(text)]
    return [line for line in shown if line not in tested] if shown else ["(there is no tour)"]


def strange_in_the_caller():
    """The lines of Rust in docs/USING.md that no caller has, and those of a block that names a file that this file has not."""
    page = read(USING)
    names = sorted(os.listdir(f"{TOP}/{CALLERS}"))
    there = {line.strip() for name in names for line in lines(read(f"{CALLERS}/{name}"))}
    shown = [line.strip() for text in TOUR.findall(page) for line in lines(text)]
    strange = [(CALLERS, line) for line in shown if line not in there] if shown else [(CALLERS, "(there is no caller)")]
    for path, quotes in quoted(page).items():
        there = {line.strip() for line in lines(read(path))} if os.path.isfile(f"{TOP}/{path}") else set()
        strange += [(path, line) for line in quotes if line.strip() not in there]
    return strange


def strange_examples():
    """The lines of examples in doc comments that no test, recipe or probe has."""
    there, shown = set(), []
    for folder, _, names in os.walk(f"{TOP}/crates"):
        path = os.path.relpath(folder, TOP)
        if "/src" not in path:
            continue
        for name in (it for it in sorted(names) if it.endswith(".rt")):
            text = read(f"{path}/{name}")
            if path.startswith(("crates/test_", "crates/example")) or "tests" in f"{path}/{name}":
                there |= {line.strip() for line in text.splitlines()}
            for block in DOC_EXAMPLE.findall(text):
                code = [re.sub(r"^\s*//[/!] ?", "", line).strip() for line in block.splitlines()]
                shown += [(f"{path}/{name}", line) for line in code if line]
    return [it for it in shown if it[1] not in there]


def strange_names(page):
    """The names of a page's tables that no source of the libraries has."""
    text = ""
    for crate in sorted(os.listdir(f"{TOP}/crates")):
        for part in ("src", "specs"):
            for folder, _, names in os.walk(f"{TOP}/crates/{crate}/{part}"):
                text += "".join(read(os.path.relpath(f"{folder}/{name}", TOP)) for name in names if name.endswith((".rt", ".antt")))
    known = set(re.findall(r"\w+", text))
    cells = [cell for line in lines(read(page)) if line.startswith("| ") for cell in line.split(" | ")]
    if page == "docs/PROTOCOL.md":
        # (the third column has the titles of the protocol's pages)
        cells = [cell for line in lines(read(page)) if line.startswith("| ") for cell in (line.split(" | ")[1], line.split(" | ")[-1])]
    named = [word for cell in cells for name in re.findall(r"`([^`]+)`", cell) for word in re.findall(r"[A-Za-z]\w+", name)]
    files = {os.path.splitext(name)[0] for _, _, names in os.walk(f"{TOP}/crates") for name in names if name.endswith(".antt")}
    crates = set(os.listdir(f"{TOP}/crates"))
    return [it for it in dict.fromkeys(named) if it not in known | files | crates | {"specs", "antt", "int", "this_", "with_"} | FORMS]


# the protocol's own names of the forms of fields
FORMS = {"string", "lenenc", "NUL", "EOF", "fix"}
# names of Rust, of the toolchain, of the original and of a server; parts of names, and what stands for any name
ELSEWHERE = {
    "AsRef", "Deref", "Arc", "HashMap", "IntoIterator", "f32", "f64", "start_lib", "plant", "untested", "incremental", "Lts",
    "gen_data", "utf8mb4_0900_ai_ci", "dialog", "GETTER", "CODEC", "FLAG", "MAJOR", "MINOR", "PATCH", "my_proxy", "Ref", "Deserializer",
}


def names_that_stand_nowhere():
    """Each page, and each name in its code that no source has. Numbers in hexadecimal and parts of names, as `with_`, are none."""
    listed = subprocess.run(["git", "ls-files"], cwd=TOP, capture_output=True, text=True, check=True).stdout.split()
    pages = [it for it in listed if it.endswith(".md")]
    sources = [it for it in listed if not it.endswith(".md") and not it.startswith(("tests/vectors/", "tests/captured/"))]
    known = set(re.findall(r"\w+", " ".join(listed)))
    for path in sources:
        known |= set(re.findall(r"\w+", read(path)))
    # (captured packets are named in the page that tells of them, by the keys of their table)
    for page in (it for it in pages if not it.startswith("tests/captured/")):
        text = re.sub(r"^```.*?^```", "", read(page), flags=re.MULTILINE | re.DOTALL)
        words = {word for span in re.findall(r"`([^`\n]+)`", text) for word in re.findall(r"(?<![\w.])[A-Za-z_]\w\w+", span)}
        for word in sorted(words - known - ELSEWHERE):
            if not (word.startswith("_") or word.endswith("_") or re.fullmatch(r"x?[0-9a-f]+|i[0-9]+", word)):
                yield page, word


def main():
    found = quoted(read(PAGE))
    wrong = sorted(set(found) - set(sources()))
    wrong += [path for path in sources() if found.get(path) != lines(read(path))]
    for path in wrong:
        print(f"{PAGE} does not quote {path} as it is")
    strange = strange_in_the_tour()
    for line in strange:
        print(f"README.md has a line in its tour that {TOUR_CALLS} has not: {line}")
    others = strange_in_the_caller()
    for path, line in others:
        print(f"{USING} has a line that {path} has not: {line}")
    untested = strange_examples()
    for path, line in untested:
        print(f"{path} has a line in an example that no test has: {line}")
    unknown = [(page, it) for page in ("docs/PROVED.md", "docs/PROTOCOL.md") for it in strange_names(page)]
    for page, name in unknown:
        print(f"{page} names {name}, which no library has")
    nowhere = [*names_that_stand_nowhere()]
    for page, name in nowhere:
        print(f"{page} names {name}, which stands nowhere")
    return 1 if wrong or strange or others or untested or unknown or nowhere else 0


if __name__ == "__main__":
    sys.exit(main())
