#!/usr/bin/env bash
# Runs README.md's commands that start a crate over copies of the libraries, as they stand there, except for `rt check`: the libraries
# would be proved once more. The last line is 'N passed, N failed'.
set -uo pipefail
cd -- "$(dirname -- "${BASH_SOURCE[0]}")/.." || exit 1

work=$(mktemp -d) || exit 1
trap 'rm -rf -- "$work"' EXIT
mkdir "$work/lib" "$work/mine"
tar --exclude=out -cf - crates crates.txt | tar -C "$work/lib" -xf -

# the block from `mkdir crates` on, without its indentation
commands=$(sed -n '/^    mkdir crates$/,/^$/s/^    //p' README.md)
if [[ $commands != *$'\nrt try <stdin'*$'\nrt check'* ]]; then
    printf 'readme: the commands are not those that this test expects\n0 passed, 1 failed\n'
    exit 1
fi
if lib=$work/lib bash -euo pipefail -c "cd $work/mine; ${commands%$'\n'rt check*}" >"$work/said" 2>&1; then
    echo '1 passed, 0 failed'
else
    cat -- "$work/said"
    printf 'readme: a command failed\n0 passed, 1 failed\n'
    exit 1
fi
