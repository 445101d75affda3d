#!/usr/bin/env bash
# Prints what a crate is built from: its line of crates.txt and those of the libraries below it, lowest first, and the SHA-256 and the path
# of each of their sources. What builds a program keeps these lines in out/NAME.sources, so the next run knows whether a source has changed:
# a copied checkout has other file times.
#
# tools/sources.sh CRATE           all these lines
# tools/sources.sh --crates CRATE  the names of the crates alone
set -euo pipefail
cd -- "$(dirname -- "$(readlink -f -- "${BASH_SOURCE[0]}")")/.."
names=
if [[ $1 == --crates ]]; then
    names=yes
    shift
fi
needed=" $1 " crates=() lines=()
while read -r line; do
    [[ $line =~ ^([a-z0-9_]+)(\ [a-z0-9_=]+)*:(.*)$ && $needed == *" ${BASH_REMATCH[1]} "* && -d crates/${BASH_REMATCH[1]} ]] || continue
    needed+="${BASH_REMATCH[3]} "
    crates=("${BASH_REMATCH[1]}" "${crates[@]}")
    lines=("$line" "${lines[@]}")
done < <(tac -- crates.txt | sed 's/ *#.*//')
if [[ $names ]]; then
    printf '%s\n' "${crates[@]}"
    exit
fi
printf '%s\n' "${lines[@]}"
find "${crates[@]/#/crates/}" -path '*/out' -prune -o -type f \( -name '*.rt' -o -name '*.antt' \) -print0 | LC_ALL=C sort -z | xargs -0 -r sha256sum --
