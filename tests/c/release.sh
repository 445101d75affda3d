#!/usr/bin/env bash
# What `mypackets-c --release` makes: twice the same bytes; the tar of each processor, unpacked in another folder, whose name has a space,
# builds the driver by pkg-config and by CMake; so do the Debian packages. The last line is 'N passed, N failed'. CMake, Debian's tools and
# those of another processor are asked for where they are.
set -uo pipefail
top=$(cd -- "$(dirname -- "${BASH_SOURCE[0]}")/../.." && pwd) || exit 1
work=$(mktemp -d) || exit 1
trap 'rm -rf -- "$work"' EXIT
passed=0 failed=0

# expect WHAT COMMAND ..: the command succeeds
expect() {
    if "${@:2}" >"$work/log" 2>&1; then
        passed=$((passed + 1))
    else
        failed=$((failed + 1))
        printf '  FAILED: %s\n' "$1"
        tail -n 5 -- "$work/log"
    fi
}

# runs PROGRAM [FOLDER]: every call of it is found, and it says what it takes
runs() { [[ $(LD_BIND_NOW=1 LD_LIBRARY_PATH=${2:-} "${emulator[@]}" "$1" </dev/null 2>&1) == *'it takes HOST'* ]]; }

# by_pkg_config FOLDER LIBDIR EXAMPLES: the driver over the shared library
by_pkg_config() {
    local flags
    flags=$(PKG_CONFIG_PATH=$1/$2/pkgconfig pkg-config --cflags --libs mysql_packets) || return 1
    eval "\"$compiler\" -o \"$work/driver\" \"$3/c/driver.c\" $flags" && runs "$work/driver" "$1/$2"
}

# by_cmake FOLDER EXAMPLES TARGET
by_cmake() {
    local project=$work/project-$machine-$3
    mkdir -p -- "$project"
    printf 'cmake_minimum_required(VERSION 3.13)\nproject(app C)\nfind_package(mysql_packets 0.1 REQUIRED)\nadd_executable(app "%s/c/driver.c")\n%s\n' \
        "$2" "target_link_libraries(app mysql_packets::$3)" >"$project/CMakeLists.txt"
    cmake -S "$project" -B "$project/build" -DCMAKE_PREFIX_PATH="$1" -DCMAKE_C_COMPILER="$compiler" "${system[@]}" &&
        cmake --build "$project/build" && runs "$project/build/app"
}

# released MACHINE ARCHITECTURE: what stands for one processor
released() {
    local tree root package
    machine=$1
    mkdir -p -- "$work/other place"
    expect "the tar of $machine is unpacked" tar -xzf "$work"/one/mysql-packets-*-"$machine.tar.gz" -C "$work/other place"
    tree=$(echo "$work/other place"/mysql-packets-*-"$machine")
    expect "the tar's sums" sh -c 'cd -- "$1" && sha256sum -c SHA256SUMS' sh "$tree"
    if [[ $has_pkg_config ]]; then
        expect "pkg-config over the tar of $machine" by_pkg_config "$tree" lib "$tree/doc/examples"
    fi
    if [[ $has_cmake ]]; then
        expect "CMake over the tar of $machine, shared" by_cmake "$tree" "$tree/doc/examples" mysql_packets
        expect "CMake over the tar of $machine, the archive" by_cmake "$tree" "$tree/doc/examples" static
    fi
    root=$work/root-$machine
    for package in "$work"/one/*_"$2.deb"; do
        expect "$(basename -- "$package") is unpacked" dpkg-deb -x "$package" "$root"
        expect "$(basename -- "$package") has its control file" dpkg-deb -f "$package" Package Version Depends
    done
    if command -v lintian >"$work/log"; then
        expect "lintian finds no error in the packages of $machine" lintian --allow-root --fail-on error "$work"/one/*_"$2.deb"
    fi
    if [[ $has_pkg_config ]]; then
        expect "pkg-config over the Debian packages of $machine" by_pkg_config "$root/usr" "lib/$machine-linux-gnu" \
            "$root/usr/share/doc/libmysql-packets-dev/examples"
    fi
}

if ! command -v dpkg-deb >"$work/log"; then
    echo 'release.sh: not run: there is no dpkg-deb'
    echo '0 passed, 0 failed'
    exit 0
fi
has_pkg_config=$(command -v pkg-config || true)
has_cmake=$(command -v cmake || true)
if [[ ! $has_pkg_config ]]; then echo 'release.sh: not run: pkg-config is not installed'; fi
if [[ ! $has_cmake ]]; then echo 'release.sh: not run: CMake is not installed'; fi

expect 'a release is made' "$top/mypackets-c" --release "$work/one"
expect 'and again' "$top/mypackets-c" --release "$work/two"
expect 'both have the same bytes' diff -r -- "$work/one" "$work/two"
expect 'the sums are those of the files' sh -c 'cd -- "$1" && sha256sum -c SHA256SUMS' sh "$work/one"
compiler=cc emulator=(env) system=()
released x86_64 amd64
if command -v aarch64-linux-gnu-gcc >"$work/log" && command -v qemu-aarch64 >"$work/log"; then
    compiler=aarch64-linux-gnu-gcc emulator=(qemu-aarch64 -L /usr/aarch64-linux-gnu) system=(-DCMAKE_SYSTEM_NAME=Linux -DCMAKE_SYSTEM_PROCESSOR=aarch64)
    released aarch64 arm64
else
    echo 'release.sh: not run for aarch64: gcc-aarch64-linux-gnu and qemu-user are not installed'
fi
printf '%d passed, %d failed\n' "$passed" "$failed"
((failed == 0))
