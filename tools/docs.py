#!/usr/bin/env python3
"""Holds pages and the rows of their tables to their lengths, links between pages to what is there, and public items to docs whose first
line makes sense alone in a list.

docs.py: the status is 0 where all of this is so."""
import re
import sys
from pathlib import Path

TOP = Path(__file__).resolve().parent.parent
# the words of a page at most, without its blocks of code
WORDS = {
    "README.md": 900,
    "CHANGELOG.md": 300,
    "docs/ARCHITECTURE.md": 2500,
    "docs/CONTRIBUTING.md": 3500,
    "docs/DECISIONS.md": 4000,
    "docs/DIFFERENCES.md": 3500,
    "docs/PROTOCOL.md": 4500,
    "docs/PROVED.md": 6500,
    "docs/USING.md": 3500,
}
# the characters of a table's row: two lines of 140
ROW = 280
ITEM = re.compile(r"\s*pub (const |unsafe )*(fn|struct|enum|trait|type|const|static) ")
# beginnings that say nothing without the item above
ALONE = re.compile(r"(The same\b|So (is|are|does|do)\b|The bytes\.|The value\.|Its? \w+\.$|Also\b|Likewise\b)")


def words(page):
    """How many words a page has outside of its blocks of code."""
    text = re.sub(r"^```.*?^```$", "", (TOP / page).read_text(), flags=re.MULTILINE | re.DOTALL)
    return sum(bool(re.search(r"\w", it)) for it in text.split())


def anchors(page):
    """The anchors of a page's headings."""
    headings = re.findall(r"^#+ (.*)$", page.read_text(), re.MULTILINE)
    return {re.sub(r"[^\w -]", "", it.lower()).strip().replace(" ", "-") for it in headings}


def lost_links(name):
    """The links of a page that lead nowhere in the repository."""
    page = TOP / name
    for link in re.findall(r"\]\(([^)\s]+)\)", page.read_text()):
        target, _, anchor = link.partition("#")
        file = page.parent / target if target else page
        if "://" not in link and not (file.exists() and (not anchor or file.suffix != ".md" or anchor in anchors(file))):
            yield f"{name}: no such place: {link}"


def docs_of(lines, place):
    """The doc comment of the item that begins on a line, above its attributes and comments."""
    while place and lines[place - 1].strip() and not lines[place - 1].strip().startswith("///") and not lines[place - 1].rstrip().endswith(("{", "}", ";")):
        place -= 1
    found = []
    while place and lines[place - 1].strip().startswith("///"):
        place -= 1
        found.insert(0, lines[place].strip()[3:].strip())
    return found


def main():
    wrong = [f"{page} has {count} words, and may have {most}" for page, most in WORDS.items() if (count := words(page)) > most]
    for page in WORDS:
        rows = enumerate((TOP / page).read_text().splitlines(), 1)
        wrong += [f"{page}:{place}: a row of {len(it)} characters" for place, it in rows if it.startswith("|") and len(it) > ROW]
        wrong += lost_links(page)
    for path in sorted(TOP.glob("crates/mysql_*/src/**/*.rt")):
        lines = path.read_text().splitlines()
        for place, line in enumerate(lines):
            if ITEM.match(line):
                docs = docs_of(lines, place)
                if not docs or ALONE.match(docs[0]):
                    wrong.append(f"{path.relative_to(TOP)}:{place + 1}: {docs[0] if docs else 'no docs'}: {line.strip()}")
    for it in wrong:
        print(it)
    return 1 if wrong else 0


if __name__ == "__main__":
    sys.exit(main())
