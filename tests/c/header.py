#!/usr/bin/env python3
"""Holds include/mysql_packets.h to the library: each struct, field and number, each call with its parameters and its answer; and to the hosts
that it is for. Each call is made in memory.c, and each that hands out a place in a packet is made in hostile_twice.c.

The offset of each field and the size of each struct, as Rattle lays a `repr(C)` struct out, are asserted by the C compiler over the
header. Numbers are those of the tables in tables/, and of <mysql.h> where Debian's libmariadb-dev is installed. The last line is 'N passed, N
failed'."""
import re
import shutil
import subprocess
import sys
import tempfile
from pathlib import Path

TOP = Path(__file__).resolve().parent.parent.parent
sys.path[:0] = [str(TOP / "tests/probe"), str(TOP / "tools")]
import tables
from lines import summary

CRATE = TOP / "crates/mysql_packets_c/src"
HEADER = TOP / "include/mysql_packets.h"
STRUCT = re.compile(r"((?:^///[^\n]*\n)+)#\[repr\(C\)\]\n(?:#\[[^\n]*\n)*pub struct (\w+)(?:<'a>)? \{(.*?)^\}", re.M | re.S)
FIELD = re.compile(r"^    pub (\w+): ([^\n]+),$", re.M)
EXPORT = re.compile(r'pub extern "C" fn (myp_\w+)(?:<[^>]*>)?\((.*?)\) -> u32', re.S)
# the flags, commands and kinds, each of which the library has
IS_IN_THE_TABLE = re.compile(r"MYP_(CLIENT|MARIADB_CLIENT|SERVER|COM|DUMP|SESSION_TRACK|PACKET|COLUMN_FLAG|ERROR)_")
SIZES = {"u8": 1, "u16": 2, "u32": 4, "u64": 8, "usize": 8}
C_TYPES = {"u8": "uint8_t", "u16": "uint16_t", "u32": "uint32_t", "u64": "uint64_t", "usize": "size_t", "i64": "int64_t", "f64": "double"}


def comments_out(text):
    return re.sub(r"/\*.*?\*/", "", text, flags=re.S)


def layout(fields, inner):
    """The C fields of a struct of Rattle, with their offsets, and its size and alignment. A field may be a struct that is known."""
    at, widest, found = 0, 1, []
    for name, kind in fields:
        array = re.fullmatch(r"\[u8; (\d+)\]", kind)
        held = inner.get(re.sub(r"<.*>", "", kind))
        parts = [(name, int(array[1]), 1)] if array else [(name, SIZES[kind], SIZES[kind])] if kind in SIZES else None
        if held:
            parts = [(name, *layout(held, inner)[1:])]
        elif parts is None and kind.startswith("&'a [u8]"):
            parts = [(name, 16, 8)]
        elif parts is None and kind.startswith("&'a ["):
            parts = [(name, 8, 8), (f"n_{name}", 8, 8)]
        for part, size, align in parts:
            at = (at + align - 1) // align * align
            found.append((part, at))
            at, widest = at + size, max(widest, align)
    return found, (at + widest - 1) // widest * widest, widest


def structs():
    """Each struct of C, with the name and the fields of the struct of Rattle whose documentation names it."""
    for path in sorted(CRATE.rglob("*.rt")):
        for doc, name, body in STRUCT.findall(path.read_text()):
            theirs = re.search(r"`(myp_\w+)`", doc)
            if theirs:
                yield theirs[1], name, FIELD.findall(body)


def asserted(header):
    """The assertions of C on its structs, and what has no counterpart."""
    known, wrong, lines = {name: fields for name, _, fields in structs()}, [], []
    inner = {name: fields for _, name, fields in structs()}
    declared = dict(re.findall(r"typedef struct (myp_\w+) \{(.*?)\} \1;", header, re.S))
    known.pop("myp_bytes"), declared.pop("myp_bytes")
    wrong += [f"{it} is a struct of one side alone" for it in declared.keys() ^ known.keys()]
    for name in declared.keys() & known.keys():
        fields, size, _ = layout(known[name], inner)
        lines += [f'_Static_assert(offsetof({name}, {field}) == {at}, "{name}.{field}");' for field, at in fields]
        lines.append(f'_Static_assert(sizeof({name}) == {size}, "{name}");')
        count = len([it for line in declared[name].split(";") for it in line.split(",") if it.strip()])
        if count != len(fields):
            wrong.append(f"{name} has {count} fields in C, and {len(fields)} in Rattle")
    return lines, wrong


def refused(lines, *flags):
    """The assertions that the C compiler refuses."""
    with tempfile.NamedTemporaryFile("w", suffix=".c") as file:
        file.write("\n".join(lines))
        file.flush()
        ran = subprocess.run(["cc", "-std=c11", "-fsyntax-only", "-I", TOP / "include", *flags, file.name], capture_output=True, text=True)
    return [it for it in ran.stderr.splitlines() if "error" in it]


def misnamed(header):
    """The constants that don't begin with the name of their enum, less a last word for what its values are."""
    found = []
    for name, body in re.findall(r"enum myp_(\w+) \{(.*?)\};", header, re.S):
        front = re.sub("_(kind|flag|code)$", "", name)
        fronts = [f"MYP_{it}_".upper() for it in (name, front)] + (["MYP_ERROR_", "MYP_OK", "MYP_END"] if name == "code" else [])
        found += [f"{it} is of enum myp_{name}" for it in re.findall(r"\bMYP_\w+", body) if not it.startswith(tuple(fronts))]
    return found


def unmarked(header):
    """The calls that return a code and may be ignored, and lines that are too long."""
    calls = re.findall(r"^uint32_t (myp_\w+)\(", header, re.M)
    plain = {"myp_version", "myp_supported_capabilities", "myp_supported_mariadb_capabilities"}
    found = [f"{it} isn't marked MYP_MUST_CHECK" for it in calls if it not in plain]
    return found + [f"line {at} has more than 100 columns" for at, line in enumerate(header.splitlines(), 1) if len(line) > 100]


def numbers_of_the_library():
    """The numbers that the library has, by the names of the header."""
    found = {row.c: row.number for name in tables.ENUMS.values() for row in tables.table(name)}
    codes = re.findall(r"^pub\(crate\) const (\w+): u32 = (\d+);$", (CRATE / "code.rt").read_text(), re.M)
    found.update({f"MYP_{name}" if name in ("OK", "END") else f"MYP_ERROR_{name}": int(value) for name, value in codes})
    return found


def passed_as(kind, names):
    """What C passes for a parameter of Rattle: a list is where it lies and how long it is, and the allocator is nothing."""
    kind = re.sub(r"'\w+ |<'\w+>", "", kind)
    if kind == "Global":
        return []
    reference = re.fullmatch(r"&(mut )?(\[)?(\w+)\]?", kind)
    if not reference:
        return [C_TYPES[kind]]
    named = C_TYPES.get(reference[3]) or names[reference[3]]
    return [f"{'' if reference[1] else 'const '}{named} *"] + ["size_t"] * bool(reference[2])


def calls(header):
    """What is exported, and what is declared: the types of the parameters, by the name of the call."""
    names = {name: theirs for theirs, name, _ in structs()}
    exported = {}
    for path in CRATE.rglob("*.rt"):
        for name, parameters in EXPORT.findall(path.read_text()):
            kinds = re.findall(r"\w+: ([^,]+?)(?:,|$)", " ".join(parameters.split()))
            exported[name] = [it for kind in kinds for it in passed_as(kind.strip(), names)]
    declared = {}
    for answer, name, parameters in re.findall(r"^(?:MYP_MUST_CHECK )?(\w+) (myp_\w+)\(([^)]*)\);", header, re.M):
        kinds = [re.sub(r"(\*?)\w+$", r"\1", " ".join(it.split())).strip() for it in parameters.split(",") if it.strip() != "void"]
        declared[name] = kinds if answer == "uint32_t" else [answer, *kinds]
    return exported, declared


def hands_out(header, declared):
    """The calls that hand out a place: those that fill in a struct with a pointer in it."""
    bodies = dict(re.findall(r"typedef struct (myp_\w+) \{(.*?)\} \1;", header, re.S))
    places = {name for name, body in bodies.items() if "*" in body}
    while found := {name for name, body in bodies.items() if places & set(re.findall(r"\bmyp_\w+", body))} - places:
        places |= found
    return {name for name, kinds in declared.items() if places & {it.removesuffix(" *") for it in kinds}}


def not_called(file, names):
    """The calls that a test of this folder has not."""
    called = set(re.findall(r"\b(myp_\w+)\(", comments_out((TOP / "tests/c" / file).read_text())))
    return [f"{it} is not called in tests/c/{file}" for it in sorted(names - called)]


def main():
    header, passed, wrong = comments_out(HEADER.read_text()), 0, []
    wrong += misnamed(header) + unmarked(HEADER.read_text())
    lines, found = asserted(header)
    failed = refused(["#include <stddef.h>", "#include <mysql_packets.h>", *lines], "-Werror")
    passed, wrong = passed + len(lines) - len(failed), wrong + found + failed
    exported, declared = calls(header)
    passed += len(exported.keys() & declared.keys())
    wrong += [f"{it} is a call of one side alone" for it in exported.keys() ^ declared.keys()]
    wrong += [f"{it} takes {', '.join(declared[it])} in C, and {', '.join(exported[it])} in Rattle" for it in exported.keys() & declared.keys() if exported[it] != declared[it]]
    for file, names in (("memory.c", declared.keys()), ("hostile_twice.c", hands_out(header, declared))):
        missing = not_called(file, names)
        passed, wrong = passed + len(names) - len(missing), wrong + missing
    hosts = {"whose pointers have 4 bytes": ["-m32", "-ffreestanding"], "that is big-endian": ["-U__BYTE_ORDER__", "-D__BYTE_ORDER__=__ORDER_BIG_ENDIAN__"]}
    taken = [it for it, flags in hosts.items() if not any("mysql_packets.h requires" in line for line in refused(["#include <mysql_packets.h>"], *flags))]
    passed, wrong = passed + len(hosts) - len(taken), wrong + [f"a host {it} is not refused" for it in taken]
    declared_names = set(re.findall(r"\b(MYP_\w+) =|\b(MYP_\w+),", " ".join(re.findall(r"enum \w+ \{(.*?)\};", header, re.S))))
    names = {a or b for a, b in declared_names}
    ours = {name: value for name, value in numbers_of_the_library().items() if name in names}
    unknown = sorted(it for it in names if IS_IN_THE_TABLE.match(it) and it not in ours)
    wrong += [f"{it} is no number of the library" for it in unknown]
    tests = [f'_Static_assert((uint32_t){name} == {value}u, "{name} is not the library\'s");' for name, value in ours.items()]
    failed = refused(["#include <mysql_packets.h>", *tests])
    passed, wrong = passed + len(tests) - len(failed), wrong + failed
    if shutil.which("mariadb_config"):
        flags = subprocess.run(["mariadb_config", "--cflags"], capture_output=True, text=True).stdout.split()
        texts = comments_out("".join(path.read_text(errors="replace") for path in Path(flags[0].removeprefix("-I")).glob("m*.h")))
        theirs = [(name, other) for name in names for other in (name.removeprefix("MYP_"), name.replace("MYP_TYPE_", "MYSQL_TYPE_"), re.sub("^MYP_COLUMN_FLAG_(.*)$", r"\1_FLAG", name))
                  if name.startswith(("MYP_CLIENT_", "MYP_SERVER_", "MYP_COM_", "MYP_TYPE_", "MYP_SESSION_TRACK_")) or name.startswith("MYP_COLUMN_FLAG_")
                  if re.search(rf"\b{other}\b", texts)]
        tests = [f'_Static_assert((unsigned){name} == (unsigned){other}, "{name} is not {other}");' for name, other in theirs]
        failed = refused(["#include <mysql.h>", "#include <mysql_packets.h>", *tests], *flags)
        passed, wrong = passed + len(tests) - len(failed), wrong + failed
        print(f"header: {len(lines)} offsets and sizes, {len(ours)} numbers of the library, {len(tests)} of <mysql.h>")
    return summary("header", passed, wrong)


if __name__ == "__main__":
    sys.exit(main())
