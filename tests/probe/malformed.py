#!/usr/bin/env python3
"""Hands the probes malformed input, and compares what they answer with the reference decoder.

malformed.py [COUNT]: each vector that is read is cut to its first n bytes for every n, has each bit turned, has each byte set to
the edges of what a byte can be, and is made into inputs at random, COUNT in all (2,000,000): cut, joined, spliced, with numbers
at the limits of their widths and with lengths that lie. The last line is 'N passed, N failed'."""
import multiprocessing
import random
import sys

from describe import x
from lines import answers, built, summary, vectors
from described import READS, Buf, Eof, Invalid, describer

EDGES = [0x00, 0x7F, 0xFB, 0xFC, 0xFD, 0xFE, 0xFF]
# What may be written longer than it was: a state of tracking always has one digit, and texts with a bare length get their own.
MAY_GROW = ("bulk", "handshake", "response", "change 2", "change_user", "more_data", "plugin", "form eof_name")
# how many inputs at random a part has
PART = 50_000
LIMITS = [b"\xff", b"\xff\xff", b"\xff\xff\xff", b"\xff" * 4, b"\xff" * 8]


def cuts_and_changes(content):
    for n in range(len(content)):
        yield content[:n]
    for i, byte in enumerate(content):
        for new in {*(byte ^ 1 << k for k in range(8)), *EDGES} - {byte}:
            yield content[:i] + bytes([new]) + content[i + 1:]


def over(content, place, written):
    return (content[:place] + written + content[place + len(written):])[:max(len(content), place + len(written))]


def changed(rng, content, others):
    place = rng.randrange(len(content) + 1)
    match rng.randrange(6):
        case 0: return content[:place]
        case 1: return content + rng.choice(others)
        case 2:
            other = rng.choice(others)
            return content[:place] + other[rng.randrange(len(other) + 1):]
        case 3:
            last = rng.choice(LIMITS)
            number = rng.choice([0, 1, int.from_bytes(last, "little") // 2, int.from_bytes(last, "little") - 1, int.from_bytes(last, "little")])
            return over(content, place, number.to_bytes(8, "little")[:rng.choice([1, 2, 3, 4, 8])])
        case 4:
            first, width = rng.choice([(b"\xfa", 0), (b"\xfc", 2), (b"\xfd", 3), (b"\xfe", 8)])
            return over(content, place, first + rng.choice(LIMITS).ljust(8, b"\0")[:width])
    return over(content, place, bytes([rng.randrange(256)]))


def grown(rng, content, others):
    for _ in range(rng.randrange(1, 5)):
        content = changed(rng, content, others)
    return content[:512]


def seeds_of(probe):
    """The vectors of a probe that are read: how each request begins, and its bytes."""
    seeds = []
    for it in vectors(probe):
        head, _, digits = it.request.rpartition(" ")
        if describer(it.request) and it.wanted[:1] == ["read"]:
            # (`()` stands for no byte)
            seeds.append((head, bytes.fromhex("" if digits == "()" else digits)))
    return seeds


def inputs(probe, count, seed):
    """Requests: how each begins, and its bytes. All cuts and changes of each vector come first where the seed is 0, and then
    this many at random."""
    seeds = seeds_of(probe)
    rng = random.Random(seed)
    others = [content for _, content in seeds]
    for head, content in seeds if seed == 0 else []:
        for made in cuts_and_changes(content):
            yield head, made
    for i in range(count):
        head, content = seeds[i % len(seeds)]
        yield head, grown(rng, content, others)


class Reading:
    """A reading of some bytes by the reference decoder: what must be answered, and what is left; or the kind of the refusal."""

    def __init__(self, describer_, content):
        buf = Buf(content)
        self.words, self.refused = [], ""
        try:
            self.words = describer_(buf)
        except Eof:
            self.refused = "UnexpectedEof"
        except Invalid:
            self.refused = "InvalidData"
        self.left = len(buf.data)


def can_be_made(words):
    """Whether the `with_` calls make such a record: those of a dump by sids set its flag for them where there are some, and clear it elsewhere."""
    answered = dict(it.partition("=")[::2] for it in words)
    return "sids" not in answered or (int(answered["flags"]) & 4 != 0) == (answered["sids"] != "0")


def wrong(describer_, content, answer):
    """What is wrong with an answer, or nothing."""
    words = answer.split(" ")
    right = Reading(describer_, content)
    if right.refused or words[0] == "refused":
        return "" if words[:3] == ["refused", right.refused, "kept"] else f"the reference decoder: {right.refused or right.words}"
    count = len(right.words)
    if words[:1 + count] != ["read", *right.words]:
        return f"the reference decoder: {' '.join(right.words)}"
    answered = dict(it.partition("=")[::2] for it in words[1 + count:])
    if answered.get("rest") != str(right.left):
        return f"the reference decoder leaves {right.left}"
    if "made" in answered and answered["made"] != ("same" if can_be_made(right.words) else "other"):
        return "what is made of the fields is another record, or is no other where it must be"
    if "written" not in answered:
        return ""
    if hasattr(describer_, "written"):
        written = describer_.written(content[:len(content) - right.left])
        is_same = content.startswith(written)
        return "" if answered["written"] == ("same" if is_same else x(written)) else f"the reference decoder writes {x(written)}"
    taken = len(content) - right.left
    size = int(answered["len"])
    if size > taken and not describer_.may_grow:
        return "it is written longer than it was"
    written = content[:size] if answered["written"] == "same" else bytes.fromhex(answered["written"][1:])
    if len(written) != size:
        return f"its length is said to be {size}"
    again = right if written == content else Reading(describer_, written)
    same = (again.words, getattr(again.words, "record", None)) == (right.words, getattr(right.words, "record", None)) and not again.refused and not again.left
    if "again" in answered and answered["again"] != ("refused" if again.refused else "same" if same else "other"):
        return f"the reference decoder, of what is written: {again.refused or again.words}"
    return ""


def part(task):
    """Makes, asks and compares a part of the inputs: how many, what failed, and how many answers of each kind there are."""
    probe, seed, count = task
    requests = list(inputs(probe, count, seed))
    lines = answers(built(probe)[0], [f"{head} {content.hex()}" for head, content in requests])
    return (len(requests), *compare(requests, lines))


def main(count="2000000"):
    # (as many parts of each probe, so that they are COUNT at least)
    tasks = [(probe, seed, PART) for probe in READS for seed in range(max(1, -(-int(count) // PART // len(READS))))]
    print(f"malformed input: {len(tasks)} parts of {PART} inputs at random, of each probe the seeds 0 to {len(tasks) // len(READS) - 1}; "
          "those of seed 0 have all cuts, turned bits and edges before them", flush=True)
    whole, failures, kinds = 0, [], {}
    with multiprocessing.Pool() as pool:
        for made, wrong_, answered in pool.imap_unordered(part, tasks):
            whole += made
            failures += wrong_
            kinds = {kind: kinds.get(kind, 0) + answered.get(kind, 0) for kind in {*kinds, *answered}}
    print(f"malformed input: {whole} inputs, {kinds}")
    return summary("malformed input", whole - len(failures), failures, 10)


def compare(requests, lines):
    """The failures, and how many answers of each kind there are."""
    describers, failures, kinds = {}, [], {}
    for (head, content), answer in zip(requests, lines):
        if head not in describers:
            describers[head] = describer(f"{head} 00")
            describers[head].may_grow = head.startswith(MAY_GROW)
        why = wrong(describers[head], content, answer)
        if why:
            failures.append(f"{head} {content.hex()}\n  {answer}\n  {why}")
        kinds[answer.split(" ")[0]] = kinds.get(answer.split(" ")[0], 0) + 1
    return failures, kinds


if __name__ == "__main__":
    sys.exit(main(*sys.argv[1:]))
