#!/usr/bin/env python3
"""Holds the probe's builders of bulk executions to a plain model of them: lists of rows, and no sizes kept.

The model makes the calls of each row `builder ..` and `writer ..` of tests/vectors/statements/builders.txt, whose language stands
in crates/test_probe_statements/src/builder.rt and builder/writer.rt, and sequences of calls at random, the same each time: 500 on
builders, 500 with more kinds of calls among them, and 500 on writers of requests, which answer as builders do.

builders.py [PROGRAM ..]  asks these builds of the probe of statements, or those that rt ci left
builders.py --unproved    asks it built without proof
builders.py --answers     prints the model's answers to the rows, and asks nothing
The last line is 'N passed, N failed', where a sequence is one."""
import copy
import random
import re
import sys

from lines import PROBES, answers, built, summary, vectors
from tried import tried

SEQUENCES = 500

TEXTS = {"MixedArity": "Mixed statement arity", "RowTooLarge": "Got row bigger than max payload length",
         "TooLarge": "Got row bigger than max payload length", "MixedTypes": "value does not fit the declared type of its column",
         "Refused": "type cannot be declared for a column", "NoParams": "No parameters values given for the bulk operation"}


# rows: a value is a kind and what the kind has, as a request spells it

def value_of(word):
    kind, rest = word[0], word[1:]
    if kind == "b":
        return "x", b"a" * int(rest)
    if kind == "x":
        return "x", bytes.fromhex(rest)
    if kind in "DT":
        return kind, tuple(map(int, rest.split("-")))
    return (kind, int(rest)) if kind in "iufd" else (kind, None)


def row_of(text):
    return [] if text == "()" else [value_of(word) for word in text.split(",")]


def rows_of(text):
    return [row_of(word) for word in text.split("/")] if text else []


def shown_value(value):
    kind, held = value
    if kind in "DT":
        return kind + "-".join(map(str, held))
    return {"N": "N", "x": f"x{held.hex()}" if kind == "x" else ""}.get(kind, f"{kind}{held}")


def shown(row):
    return ",".join(map(shown_value, row)) or "()"


def sized(fields, *lengths):
    """The fields after their length, without those at the end that are zero, at one of these lengths or whole."""
    length = next((it for it in lengths if not any(fields[it:])), len(fields))
    return bytes([length]) + fields[:length]


def written(value):
    """A value's bytes after its indicator."""
    kind, held = value
    if kind == "x":
        assert len(held) < 251
        return bytes([len(held)]) + held
    if kind == "D":
        return sized(held[0].to_bytes(2, "little") + bytes(held[1:6]) + held[6].to_bytes(4, "little"), 0, 4, 7)
    if kind == "T":
        return sized(bytes(held[:1]) + held[1].to_bytes(4, "little") + bytes(held[2:5]) + held[5].to_bytes(4, "little"), 0, 8)
    return b"" if kind == "N" else held.to_bytes(4 if kind == "f" else 8, "little", signed=kind == "i")


TYPES = {"N": 6, "i": 8, "u": 8, "f": 4, "d": 5, "x": 253, "D": 12, "T": 11}
# the codes under which a value of each kind is spelled as it is under its own type
SPELLED = {"i": {8}, "u": {8}, "f": {4}, "d": {5}, "x": {0, 15, *range(242, 243), *range(245, 256)}, "D": {7, 10, 12}, "T": {11}}


def declared_types(words):
    """Types that are declared: a code, and whether it is unsigned."""
    types = [(int(word.rstrip("u")), word.endswith("u")) for word in words]
    for place, (code, is_unsigned) in enumerate(types):
        if not any(code in codes for codes in SPELLED.values()) or (is_unsigned and code != 8):
            raise Refused(f"Refused={place}")
    return types


def spells(declared, value):
    (code, is_unsigned), (kind, held) = declared, value
    if kind == "N":
        return True
    if kind in "iu":
        return code == 8 and (0 <= held < 2 ** 64 if is_unsigned else -2 ** 63 <= held < 2 ** 63)
    return code in SPELLED[kind] and not (code == 10 and any(held[3:]))


def type_of(column):
    """The type that is sent for a column: that of its first value that is not NULL."""
    code = next((TYPES[kind] for kind, _ in column if kind != "N"), 6)
    is_unsigned = code == 8 and any(kind == "u" for kind, _ in column)
    return bytes([code, 128 if is_unsigned else 0])


# parameters: none, a row, or values by name

def params_of(text):
    if text == "empty":
        return []
    if text == "named" or "=" in text:
        return {name: value_of(word) for name, _, word in (it.partition("=") for it in text.split(",") if "=" in it)}
    return tuple(row_of(text))


class Refused(Exception):
    """A call was refused: its word is the answer, and its text."""

    def __init__(self, word):
        super().__init__(word)
        name = word.partition("=")[0]
        self.answer = f"{word} text={TEXTS.get(name, name)}"


def values_of(params, names):
    """The row that parameters give, for the names of the statement, if it has any."""
    if isinstance(params, list):
        return []
    if isinstance(params, tuple):
        if names is not None:
            raise Refused("PositionalForNamed")
        return list(params)
    if names is None:
        raise Refused("NamedForPositional")
    for name in names:
        if name not in params:
            raise Refused(f"Missing=x{name.encode().hex()}")
    return [params[name] for name in names]


# the machine

class Builder:
    def __init__(self, settings, names):
        limit, *words = settings.split(",")
        self.limit = int(limit) - 4
        self.results, self.types_always = "results" in words, "types" in words
        self.most = next((int(word[5:]) or None for word in words if word.startswith("rows=")), None)
        self.names = names if "names=" in settings else None
        self.waiting, self.arity, self.types_due = [], None, True
        declared = next((word[8:] for word in words if word.startswith("columns=")), None)
        self.columns = declared if declared is None else declared_types([] if declared == "()" else declared.split("/"))
        if self.columns is not None:
            self.arity = len(self.columns)

    def type_at(self, place, column):
        """The type that is sent for a column: the declared one, if there is one."""
        if self.columns is None:
            return type_of(column)
        code, is_unsigned = self.columns[place]
        return bytes([code, 128 if is_unsigned else 0])

    def fits(self, rows):
        size = 7 + (2 * len(rows[0]) if self.types_due else 0)
        size += sum(1 + len(written(value)) for row in rows for value in row)
        return size <= self.limit and (self.most is None or len(rows) <= self.most)

    def add(self, row):
        """The row given back, if it was."""
        if self.arity not in (None, len(row)):
            raise Refused("MixedArity")
        if self.columns is not None and not all(map(spells, self.columns, row)):
            raise Refused(f"MixedTypes={shown(row)}")
        if not self.fits(self.waiting + [row]):
            if self.waiting:
                return row
            raise Refused(f"RowTooLarge={shown(row)}")
        self.waiting.append(row)
        self.arity = len(row)
        return None

    def build(self):
        if not self.waiting:
            raise Refused("NoParams")
        rows, self.waiting = self.waiting, []
        sends_types, self.types_due = self.types_due, self.types_always
        flags = (128 if sends_types else 0) | (64 if self.results else 0)
        request = b"\xfa\1\0\0\0" + flags.to_bytes(2, "little")
        if sends_types:
            request += b"".join(map(self.type_at, range(len(rows[0])), zip(*rows)))
        request += b"".join((b"\1" if value[0] == "N" else b"\0") + written(value) for row in rows for value in row)
        return f"request=x{request.hex()}"


class Run:
    """A run over an input, whose words are rows or `-`."""

    def __init__(self, builder, words, taken=row_of):
        self.builder, self.words, self.taken = builder, words, taken
        self.asked, self.carried, self.ended = 0, None, False

    def ask(self):
        self.asked += 1
        word = self.words.pop(0) if self.words else "-"
        return None if word == "-" else self.taken(word)

    def next(self):
        """What a `next` answers; it raises the refusal that ends the run."""
        if self.ended:
            return "None"
        row, self.carried = self.carried, None
        try:
            row = row if row is not None else self.ask()
            while row is not None:
                self.carried = self.builder.add(row)
                if self.carried is not None:
                    return self.builder.build()
                row = self.ask()
        except Refused:
            self.ended = True
            raise
        self.ended = True
        return self.builder.build() if self.builder.waiting else "None"


# the calls of a sequence

class Session:
    def __init__(self, settings):
        names = next((word[6:].split("/") for word in settings.split(",") if word.startswith("names=")), [])
        self.names, self.carried = names, None
        self.builder, self.aside = Builder(settings, names), Builder(settings, names)

    def answer(self, call):
        name, _, argument = call.partition(":")
        try:
            return getattr(self, "call_" + name)(argument)
        except Refused as refused:
            return refused.answer

    def added(self, row):
        back = self.builder.add(row)
        return "taken" if back is None else f"back={shown(back)}"

    def call_add(self, argument):
        return self.added(row_of(argument))

    def call_slice(self, argument):
        try:
            return "taken" if self.builder.add(row_of(argument)) is None else "kept"
        except Refused as refused:
            raise Refused(str(refused).partition("=")[0].removeprefix("Row")) from None

    call_refs = call_slice

    def taken(self, text):
        return values_of(params_of(text), self.builder.names)

    def call_put(self, argument):
        return self.added(self.taken(argument))

    def call_again(self, _):
        row, self.carried = self.carried, None
        return "nothing" if row is None else self.added(row)

    def call_build(self, _):
        return self.builder.build()

    def left(self):
        """The bytes of the rows that wait, as a writer keeps them."""
        return copy.deepcopy(self.builder).build().replace("request", "left") if self.builder.waiting else "left=x"

    def call_has(self, _):
        return "yes" if self.builder.waiting else "no"

    def call_rule(self, _):
        return f"types_always={'yes' if self.builder.types_always else 'no'} max_rows={str(self.builder.most).lower()}"

    def call_clone(self, _):
        self.aside = copy.deepcopy(self.builder)
        return "copied"

    def call_other(self, argument):
        self.aside = Builder(argument, self.names)
        return "aside"

    def call_equal(self, _):
        return "same" if vars(self.builder) == vars(self.aside) else "other"

    def call_swap(self, _):
        self.builder, self.aside = self.aside, self.builder
        return "swapped"

    def call_all(self, argument):
        rows = rows_of(argument)
        run, sent = Run(self.builder, [shown(row) for row in rows]), len(self.builder.waiting)
        total, requests, ends, end = sent + len(rows), [], [], "sent"
        while not run.ended:
            try:
                request = run.next()
            except Refused as refused:
                end = refused.answer
                break
            if request != "None":
                requests.append(request)
                ends.append(f"end={total - len(run.words) - (run.carried is not None)}")
        return " ".join(requests + ends + [end])

    def call_iter(self, argument, taken=row_of):
        count, _, words = argument.partition(":")
        run, answered = Run(self.builder, words.split("/"), taken), []
        for _ in range(int(count)):
            try:
                answered.append(run.next())
            except Refused as refused:
                answered.append(refused.answer)
        self.carried = run.carried
        carried = "none" if run.carried is None else shown(run.carried)
        return " ".join(answered + [f"asked={run.asked}", f"carried={carried}"])

    def call_params(self, argument):
        return self.call_iter(argument, self.taken)


def modelled(request):
    """What the model answers to a request."""
    kind, settings, *calls = request.split(" ")
    try:
        session = Session(settings)
    except Refused as refused:
        return refused.answer
    answered = [session.answer(call) for call in calls]
    return " ; ".join(answered + [session.left()] if kind == "writer" else answered)


# calls at random

def random_row(rng, arity):
    words = [rng.choice(["N", "i1", "i-2", "u5", "u18446744073709551615", "b0", "b1", "b9", "b40"]) for _ in range(arity)]
    return ",".join(words) or "()"


def random_call(rng, arity):
    def row():
        return random_row(rng, arity if rng.random() < 0.9 else rng.randrange(4))

    def words(nones):
        return "/".join("-" if rng.random() < nones else row() for _ in range(rng.randrange(1, 6)))

    kind = rng.randrange(20)
    if kind < 7:
        return f"add:{row()}"
    if kind < 10:
        return "build"
    if kind == 10:
        return f"put:{row()}"
    if kind == 11:
        return rng.choice(["has", "put:named", "put:empty", "again"])
    if kind < 14:
        return f"all:{words(0)}"
    run = f"{rng.choice(['iter', 'params'])}:{rng.randrange(4)}:{words(0.1)}"
    return run + (" again" if rng.random() < 0.7 else "")


def random_request(rng):
    settings = [str(rng.randrange(15, 70))]
    for word, chance in (("results", 0.2), ("types", 0.3), (f"rows={rng.randrange(1, 4)}", 0.3)):
        if rng.random() < chance:
            settings.append(word)
    arity = rng.choice([0, 1, 1, 1, 2, 2, 3])
    calls = [random_call(rng, arity) for _ in range(rng.randrange(4, 10))]
    return " ".join(["builder", ",".join(settings)] + calls)


def with_more(rng, request):
    """The same with borrowed rows, names, and calls on two builders among its calls."""
    head, settings, *calls = request.split(" ")
    if rng.random() < 0.3:
        settings += ",names=b/a"
        calls = [rng.choice(["put:a=i1,b=u5", "put:b=N,a=b9,c=i1", "put:a=i1", "params:2:a=i1,b=i2/b=b1,a=N/i1", "put:i1,i2"])
                 if it.startswith(("put", "params")) else it for it in calls]
    if rng.random() < 0.3:
        settings += ",columns=" + rng.choice(["8", "8u", "253", "8/8u", "8u/252", "8/8/254", "8/246", "()"])
    more = []
    for call in calls:
        more.append(call.replace("add:", rng.choice(["slice:", "refs:"])) if rng.random() < 0.6 else call)
        if rng.random() < 0.3:
            more.append(rng.choice(["clone", "equal", "equal", "swap", "rule", f"other:{settings}", "other:64"]))
    return " ".join([head, settings] + more)


def random_writer(rng):
    """Calls on a writer of requests."""
    settings = random_request(rng).split(" ")[1]
    columns = rng.choice(["8", "8u", "253", "8/8u", "8u/252", "8/8/254", "8/246", "()"])
    arity = 0 if columns == "()" else columns.count("/") + 1
    calls = []
    for _ in range(rng.randrange(4, 16)):
        row = random_row(rng, arity if rng.random() < 0.9 else rng.randrange(4))
        calls += [f"refs:{row}"] if rng.random() < 0.7 else ["build", f"refs:{row}"] if rng.random() < 0.7 else [rng.choice(["has", "build"])]
    return " ".join(["writer", f"{settings},columns={columns}"] + calls)


def random_requests():
    rng = random.Random(16)
    first = [random_request(rng) for _ in range(SEQUENCES)]
    return first + [with_more(rng, it) for it in first] + [random_writer(rng) for _ in range(SEQUENCES)]


def main(*programs):
    # (rows of values under types of any width are rows alone: the model has none of them)
    asked = [it.request for it in vectors("statements") if it.request.startswith(("builder ", "writer "))]
    rows = [it for it in asked if not (it.startswith("writer ") and re.search(r"[ ,]any[ ,]| (values|all):", it))]
    if programs == ("--answers",):
        for request in rows:
            print(f"{request}\n  {modelled(request)}")
        return 0
    requests = rows + random_requests()
    expected = [modelled(it) for it in requests]
    if programs == ("--unproved",):
        answered = [tried(requests, PROBES["statements"])]
    else:
        answered = [answers(it, requests) for it in programs or built("statements")]
    passed, failures = 0, []
    for lines in answered:
        differ = [f"{asked}\n  {line}\n  is not\n  {right}" for asked, line, right in zip(requests, lines, expected) if line != right]
        passed += len(lines) - len(differ)
        failures += differ
    return summary("builders", passed, failures)


if __name__ == "__main__":
    sys.exit(main(*sys.argv[1:]))
