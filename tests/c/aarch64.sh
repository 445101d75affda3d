#!/usr/bin/env bash
# The library for aarch64: the programs of this folder, over its archive, as qemu runs them. The last line is 'N passed, N failed'. It
# needs Debian's gcc-aarch64-linux-gnu and qemu-user. aarch64.sh [COUNT]: COUNT malformed packets (10,000).
set -uo pipefail
top=$(cd -- "$(dirname -- "${BASH_SOURCE[0]}")/../.." && pwd) || exit 1
work=$(mktemp -d) || exit 1
trap 'rm -rf -- "$work"' EXIT
prefix=$top/target/c-aarch64
passed=0 failed=0

# expect WHAT COMMAND ..: the command succeeds
expect() {
    if "${@:2}" >"$work/log" 2>&1; then
        passed=$((passed + 1))
    else
        failed=$((failed + 1))
        printf '  FAILED: %s\n' "$1"
        tail -n 5 -- "$work/log"
    fi
}

# counted COMMAND ..: the command's last line has its counts
counted() {
    "$@" >"$work/said" 2>&1
    sed '$d' "$work/said"
    if [[ $(tail -n 1 "$work/said") =~ ^([0-9]+)\ passed,\ ([0-9]+)\ failed$ ]]; then
        passed=$((passed + BASH_REMATCH[1])) failed=$((failed + BASH_REMATCH[2]))
    else
        failed=$((failed + 1))
        printf '  FAILED: %s\n' "$*"
        tail -n 3 "$work/said"
    fi
}

# built NAME [FLAGS ..]: a program of the files of this folder that begin so
built() {
    aarch64-linux-gnu-gcc -static -std=gnu11 -O1 -Wall -Wextra -Werror "${@:2}" -I "$prefix/include" -o "$work/$1" "$top/tests/c/$1"*.c "$prefix/lib/libmysql_packets.a"
}

if ! command -v aarch64-linux-gnu-gcc >"$work/log" || ! command -v qemu-aarch64 >"$work/log"; then
    echo 'aarch64.sh: not run: gcc-aarch64-linux-gnu and qemu-user are not installed'
    echo '0 passed, 0 failed'
    exit 0
fi
expect 'the library is built' "$top/mypackets-c" --machine aarch64 "$prefix"
expect 'abi.c is built' built abi
counted qemu-aarch64 "$work/abi"
expect 'memory.c is built' built memory -Wl,--wrap=malloc,--wrap=realloc,--wrap=calloc,--wrap=free
counted qemu-aarch64 "$work/memory"
expect 'hostile.c is built' built hostile
"$top/tests/c/rows.py" --seeds >"$work/seeds"
expect 'hostile.c' sh -c 'qemu-aarch64 "$1" "$2" 1 <"$3"' sh "$work/hostile" "${1:-10000}" "$work/seeds"
printf '%d passed, %d failed\n' "$passed" "$failed"
((failed == 0))
