#!/usr/bin/env bash
# Holds files to what they must say: HANDLES, the lines that documents quote, the chart of instruction counts, the lists that tables/ has,
# the libraries that README.md copies, the format of the sources, and that every definition, lemma and private function is used.
# The last line is 'N passed, N failed'.
set -uo pipefail
cd -- "$(dirname -- "${BASH_SOURCE[0]}")/.." || exit 1

passed=0
failed=0

# expect WHAT COMMAND ..: the command succeeds
expect() {
    if "${@:2}"; then
        passed=$((passed + 1))
    else
        failed=$((failed + 1))
        printf 'files: %s\n' "$1"
    fi
}

expect 'HANDLES holds another line' cmp -s HANDLES <(printf 'Handles allowed: none.\n')
expect 'the table of recorded packets is out of date' tests/captured/versions.py --check
expect 'a page quotes other lines than the crate has, or names what no library has' tools/quoted_lines.py

expect 'a page is too long, or a public item has no docs that make sense alone' tools/docs.py
expect 'the chart of instruction counts is out of date' bench/chart.py --check
expect 'a list of the numbers of the protocol is out of date' tools/tables.py --check
expect 'nothing uses a definition, a lemma or a private function' tools/unused

# Words that no page of the field uses, and what stands for them: untrusted, little-endian, the initial handshake, a mutant, an
# allocation that fails, passed or shown, after, capacity, to check, EofName, the reference decoder, X_round_trips.
words='so many|is reckoned|hangs on|but for|stranger|low (one|byte) first|says first|wrong (body|bodies)|refused growths?|told|behind|room|judge[sd]?|lastname|second reading'
# none_of_them: no file of the repository has one outside of a lemma's name, except for a text that a reader answers
none_of_them() {
    ! grep -rnIiP --include='*.rt' --include='*.antt' --include='*.edit' --include='*.md' --include='*.py' --include='*.sh' \
        --include='*.txt' --include='*.c' --include='*.h' --include=check --include=mypackets --include=mypackets-c --include=run --exclude=files.sh \
        --exclude-dir=out -e "(?<![\w-])($words)(?![\w-])" README.md check mypackets mypackets-c bench crates docs examples include tests tools |
        grep -v 'Bytes behind the last sid'
}
expect 'a word stands there that another one stands for' none_of_them
# lists_the_libraries: README.md's commands copy mysql_packets and the libraries below it, and no others
lists_the_libraries() {
    local said below
    said=$(sed -n '/^    for name in /,/; do$/p' README.md | sed 's/for name in//; s/; do//' | tr -d '\\' | xargs -n 1 | sort)
    below=$(cd tools && python3 -c "from libraries import below, crates
print(*sorted(it.removeprefix('mysql_') for it in {'mysql_packets', *below('mysql_packets', crates())}), sep='\n')")
    [[ $said == "$below" ]]
}
expect 'README.md copies other libraries than mysql_packets stands on' lists_the_libraries
# laws_are_named_alike: a law of a round trip is named so
laws_are_named_alike() {
    ! grep -rnE 'pub fn \w+_again\b' crates/*/src/laws crates/*/src/laws.rt
}
expect 'a law of a round trip has another name' laws_are_named_alike
# are_formatted: as rt fmt formats a crate; rt ci refuses it otherwise, but rt check and rt lib don't
are_formatted() {
    find crates -name out -prune -o -type f \( -name '*.rt' -o -name '*.antt' \) -print0 |
        xargs -0 -- "$(dirname -- "$(readlink -f -- "$(command -v rt)")")/rattle" fmt --check
}
expect 'a file is not formatted: run rt fmt in the folder of its crate' are_formatted

printf '%d passed, %d failed\n' "$passed" "$failed"
((failed == 0))
