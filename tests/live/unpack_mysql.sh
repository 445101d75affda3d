#!/usr/bin/env bash
# Unpacks MySQL's server, as Debian unstable packages it, with the libraries and the loader that it needs, into a folder. Nothing is installed.
#
# unpack_mysql.sh FOLDER      then: MYSQL_FOLDER=FOLDER tests/live/live.py
#
# It needs apt, and asks the mirror that the machine's own sources name. 66 MB are downloaded, 410 MB unpacked.
set -euo pipefail
folder=$(realpath -m -- "$1")
keys=/usr/share/keyrings/debian-archive-keyring.gpg
work=$(mktemp -d)
trap 'rm -rf -- "$work"' EXIT

mirror=$(apt-get indextargets --format '$(REPO_URI)' | grep -m 1 '/debian/$')
mkdir -p -- "$work"/{lists/partial,cache/archives/partial,packages} "$folder"
printf 'deb [signed-by=%s] %s unstable main\n' "$keys" "$mirror" >"$work/sources.list"
: >"$work/status"
options=(-o "Dir::Etc::sourcelist=$work/sources.list" -o Dir::Etc::sourceparts=/dev/null -o "Dir::State::lists=$work/lists" -o "Dir::Cache=$work/cache"
    -o Acquire::Languages=none)
apt-get "${options[@]}" -qq update
# (on a system without a package all that the server needs is new)
apt-get "${options[@]}" -o "Dir::State::status=$work/status" -o Debug::NoLocking=1 --no-install-recommends -y --print-uris install mysql-server-core \
    2>/dev/null | sed -n "s/^'\([^']*\)'.*/\1/p" >"$work/addresses"
(cd -- "$work/packages" && xargs -n 1 -P 4 curl -sSfO <"$work/addresses")
for package in "$work"/packages/*.deb; do
    dpkg -x "$package" "$folder"
done
printf 'unpacked %d packages; run MYSQL_FOLDER=%s tests/live/live.py\n' "$(wc -l <"$work/addresses")" "$folder"
