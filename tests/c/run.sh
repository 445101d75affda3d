#!/usr/bin/env bash
# Installs the library for C as a user does, and passes its tests:
#
# header.py    the header and the library have the same structs, offsets, numbers and calls
# abi.c        packets of the protocol's pages through each call
# memory.c     no call asks for memory
# hostile.c    the rows of tests/vectors/, cut and changed, right before a page that may not be touched
# rows.py      the same rows and malformed input, compared with the reference decoder
# conversations.py   which packet comes next, in recorded conversations and changed ones, compared with the second tracker
# live.py      the examples against a MariaDB server, where one is installed
# package.py   the Python package, installed in an environment of its own
# python_rows.py   10,000 random lists of rows, written in bulk by the Python package and read back by the reference decoder
# aarch64.sh   abi.c, memory.c and hostile.c over the library for aarch64, as qemu runs them, where its compiler and qemu are installed
# release.sh   what is handed out: made twice it is the same, and the driver is built with it in another folder
#
# The address and undefined behaviour sanitizers watch the programs in C, where the compiler has them. The last line is 'N passed, N
# failed'. It needs rt, a C toolchain with cc, ld, ar, objcopy and nm, and python3. run.sh [COUNT]: COUNT malformed packets (100,000).
set -uo pipefail
top=$(cd -- "$(dirname -- "${BASH_SOURCE[0]}")/../.." && pwd) || exit 1
work=$(mktemp -d) || exit 1
trap 'rm -rf -- "$work"' EXIT
prefix=$top/target/c
count=${1:-100000}
passed=0 failed=0

# expect WHAT COMMAND ..: the command succeeds
expect() {
    if "${@:2}"; then passed=$((passed + 1)); else failed=$((failed + 1)); printf '  FAILED: %s\n' "$1"; fi
}

# counted COMMAND ..: the command's last line has its counts
counted() {
    "$@" >"$work/said" 2>&1
    sed '$d' "$work/said"
    if [[ $(tail -n 1 "$work/said") =~ ^([0-9]+)\ passed,\ ([0-9]+)\ failed$ ]]; then
        passed=$((passed + BASH_REMATCH[1])) failed=$((failed + BASH_REMATCH[2]))
    else
        tail -n 3 "$work/said"
        failed=$((failed + 1))
        printf '  FAILED: %s\n' "$*"
    fi
}

if ! "$top/mypackets-c" "$prefix"; then
    printf '0 passed, 1 failed\n'
    exit 1
fi
sanitize=(-fsanitize=address,undefined -fno-sanitize-recover=all)
printf 'int main(void) { return 0; }\n' >"$work/none.c"
if ! { cc "${sanitize[@]}" -o "$work/none" "$work/none.c" && "$work/none"; } >"$work/log" 2>&1; then
    echo 'run.sh: the compiler has no sanitizers'
    sanitize=()
fi

# built NAME [FLAGS ..]: a program of the files of this folder that begin so, over the archive
built() {
    cc -std=gnu11 -O1 -g -Wall -Wextra -Werror "${@:2}" -I "$prefix/include" -o "$work/$1" "$top/tests/c/$1"*.c "$prefix/lib/libmysql_packets.a"
}

counted "$top/tests/c/header.py"
expect 'abi.c is built' built abi "${sanitize[@]}"
counted "$work/abi"
expect 'memory.c is built' built memory "${sanitize[@]}" -Wl,--wrap=malloc,--wrap=realloc,--wrap=calloc,--wrap=free
counted "$work/memory"
expect 'hostile.c is built' built hostile "${sanitize[@]}"
"$top/tests/c/rows.py" --seeds >"$work/seeds"
expect 'hostile.c' "$work/hostile" "$count" 1 <"$work/seeds"
counted "$top/tests/c/rows.py" "$prefix/lib/libmysql_packets.so" "$count"
counted "$top/tests/c/conversations.py" "$prefix/lib/libmysql_packets.so"
# (they are run only where a server is)
for example in "$top"/examples/c/*.c; do
    expect "${example##*/} is built" cc -std=gnu11 -Wall -Wextra -Werror -I "$prefix/include" -o "$work/example" "$example" "$prefix/lib/libmysql_packets.a"
done
counted "$top/tests/c/live.py" "$prefix"
counted "$top/tests/c/package.py" "$prefix"
MYSQL_PACKETS_PREFIX=$prefix counted "$top/tests/c/python_rows.py"
counted "$top/tests/c/aarch64.sh"
counted "$top/tests/c/release.sh"

# C++ takes the header too
if command -v c++ >"$work/log"; then
    printf '#include <mysql_packets.h>\nint main() { myp_login l = MYP_LOGIN_INIT; myp_sid s = MYP_SID_INIT; myp_value v = myp_text("a", 1);\n%s\n' \
        'return (int)(l.used + s.n_intervals + v.bytes.len - 1 + myp_version() - MYP_VERSION); }' >"$work/plus.cc"
    expect 'C++' c++ -Wall -Wextra -Werror -I "$prefix/include" -o "$work/plus" "$work/plus.cc" "$prefix/lib/libmysql_packets.a"
    expect 'C++' "$work/plus"
fi

# the symbols that are visible: the calls of the header
sed -n 's/^\(MYP_MUST_CHECK \)\?uint32_t \(myp_[a-z0-9_]*\)(.*/\2/p' "$prefix/include/mysql_packets.h" | sort -u >"$work/header"
nm -g --defined-only "$prefix/lib/libmysql_packets.a" 2>"$work/log" | sed -n 's/^[0-9a-f]* [A-Z] //p' | sort -u >"$work/archive"
nm -D --defined-only "$prefix/lib/libmysql_packets.so" | sed -n 's/^[0-9a-f]* T //p' | sed 's/@.*//' | sort -u >"$work/shared"
expect 'the archive has other symbols than the header' diff -- "$work/header" "$work/archive"
expect 'the shared library has other symbols than the header' diff -- "$work/header" "$work/shared"
expect 'the shared library refers to a function that takes memory' test -z "$(nm -u "$prefix/lib/libmysql_packets.so" | grep -E ' (malloc|calloc|realloc)(@|$)')"
expect 'the shared library has no soname' grep -q 'soname: \[libmysql_packets.so.0\]' <(readelf -d "$prefix/lib/libmysql_packets.so")
printf '%d passed, %d failed\n' "$passed" "$failed"
((failed == 0))
