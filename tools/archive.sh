#!/usr/bin/env bash
# Prints the path of a static library's archive, which is proved and built first where it is not there, or a source has changed.
#
# tools/archive.sh CRATE [MACHINE]: of this machine, or of one that `uname -m` calls so
set -euo pipefail
top=$(cd -- "$(dirname -- "${BASH_SOURCE[0]}")/.." && pwd)
out=$top/crates/$1/out
machine=${2:-$(uname -m)}
sources=$("$top/tools/sources.sh" "$1")

# is_new ARCHIVE: it is there, built from the sources as they are
is_new() {
    [[ -f $1 && -f $1.sources && $(<"$1.sources") == "$sources" ]]
}

# (tools/gate.py leaves the first one, and rt lib makes the second)
archives=("$out/$1.a" "$out/lib$1.a")
if [[ $machine != "$(uname -m)" ]]; then archives=("$out/$1-$machine.a"); fi
for archive in "${archives[@]}"; do
    if is_new "$archive"; then
        printf '%s\n' "$archive"
        exit
    fi
done
if [[ $machine != "$(uname -m)" ]]; then
    # (what lies below it is proved for each machine)
    "$top/tools/archive.sh" "$1" >/dev/null
    printf '%s: proved and built for %s: some minutes\n' "$1" "$machine" >&2
    rm -f -- "$archive" "$archive.sources"
    "$top/tools/cross.py" "$1" "$machine" "$archive" >&2
    printf '%s\n' "$sources" >"$archive.sources"
    printf '%s\n' "$archive"
    exit
fi
# (a line as each crate's turn comes: from nothing it is most of an hour)
log=$(mktemp)
trap 'rm -f -- "$log"' EXIT
printf '%s: proved and built first; where no proof is kept that takes most of an hour on four processors\n' "$1" >&2
(cd -- "$top/crates/$1" && rt lib) </dev/null 2>&1 | tee -- "$log" | sed -un 's/^rt: chose .* for \([a-z_]*\)$/  \1 is being proved/p' >&2 || {
    cat -- "$log" >&2
    exit 1
}
printf '%s\n' "$sources" >"$archive.sources"
printf '%s\n' "$archive"
