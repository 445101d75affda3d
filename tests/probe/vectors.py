#!/usr/bin/env python3
"""Compares what the probes answer to the requests of tests/vectors/ with the lines below them.

vectors.py                       asks the builds that rt ci left; the last line is 'N passed, N failed'
vectors.py --unproved PROBE ..   asks these probes, built without proof: replies, statements, connections, program
vectors.py --write PROBE FILE    prints the requests of a file with their answers, by a build without proof, to begin a file
                                 with; what is wanted must come from elsewhere than from the probe"""
import sys
from pathlib import Path

from lines import PROBES, answers, built, differing, summary, plain, vectors
from tried import tried


def main(how="", *names):
    passed, wrong = 0, []
    if how == "--write":
        asked = [it for it in Path(names[1]).read_text().splitlines() if it and not it.startswith(("#", "  "))]
        for request, answer in zip(asked, tried(asked, PROBES[names[0]])):
            print(f"{request}\n  {' '.join(plain(answer, request))}")
        return 0
    for probe in names or PROBES:
        # (rows of many megabytes, whose growths are not counted, take a minute without proof)
        found = [it for it in vectors(probe) if how != "--unproved" or "not counted" not in it.growths]
        requests = [it.request for it in found]
        asked = [tried(requests, PROBES[probe])] if how == "--unproved" else [answers(it, requests) for it in built(probe)]
        for lines in asked:
            differ = differing(found, lines)
            passed += len(found) - len(differ)
            wrong += differ
    return summary("vectors", passed, wrong)


if __name__ == "__main__":
    sys.exit(main(*sys.argv[1:]))
