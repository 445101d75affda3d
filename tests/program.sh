#!/usr/bin/env bash
# Runs ./mypackets as a user would, and compares what it writes and the status that it ends with.
# The last line is 'N passed, N failed'.
set -uo pipefail
top=$(cd -- "$(dirname -- "${BASH_SOURCE[0]}")/.." && pwd) || exit 1
work=$(mktemp -d) || exit 1
trap 'rm -rf -- "$work"' EXIT
# In a copy of the checkout: beside rt ci, which ./check runs, rt waits in the same one.
mkdir -- "$work/copy" && tar -C "$top" --exclude='crates/*/out' -cf - HANDLES crates.txt mypackets tools/sources.sh crates | tar -C "$work/copy" -xf - || exit 1
for name in mypackets mypackets_conversation; do
    mkdir -- "$work/copy/crates/$name/out" || exit 1
    for it in "$top/crates/$name/out/$name"{,.sources}; do
        [[ ! -f $it ]] || cp -- "$it" "$work/copy/crates/$name/out/" || exit 1
    done
done
top=$work/copy
# (from another folder, and by a relative path and by a link, as it may be called)
mkdir -- "$work/an other folder" && cd -- "$work/an other folder" || exit 1
ln -s -- "$top/mypackets" linked

passed=0
failed=0

# hold WHAT TEXT: a text says what is wrong
hold() {
    if [[ -z $2 ]]; then
        passed=$((passed + 1))
    else
        failed=$((failed + 1))
        printf 'program: %s: %s\n' "$1" "$2"
    fi
}

# compare WHAT STATUS OUTPUT ERRORS ENDED: what was run ended with STATUS, and wrote OUTPUT, and ERRORS to standard error
compare() {
    local wrong=
    if (($5 != $2)); then
        wrong="it ended with status $5, and not $2"
    elif ! cmp -s output <(printf '%s' "$3"); then
        wrong="it wrote: $(head -c 400 output)"
    elif ! cmp -s errors <(printf '%s' "$4"); then
        wrong="it wrote to standard error: $(head -c 400 errors)"
    fi
    hold "$1" "$wrong"
}

# expect WHAT STATUS OUTPUT COMMAND ..: on what stands in the file input, it writes the lines of OUTPUT and
# nothing to standard error, and ends with STATUS
expect() {
    "${@:4}" <input >output 2>errors
    compare "${@:1:3}" '' "$?"
}

# fails_to_write WHAT COMMAND ..: its output takes nothing, so it ends with status 3
fails_to_write() {
    "${@:2}" <input >/dev/full 2>errors
    local status=$? wrong=
    ((status == 3)) || wrong="it ended with status $status, and not 3"
    [[ -s errors ]] && wrong="it wrote to standard error: $(head -c 400 errors)"
    hold "$1" "$wrong"
}

# begin_unproved NAME INPUT WORD ..: the program without proof begins, on INPUT that comes with a pause; it takes half a minute on a
# quiet host, and other calls are compared meanwhile
begin_unproved() {
    mkdir -- "$1" || exit 1
    (
        cd -- "$1" || exit 1
        (printf '%s' "$2" && sleep 3) | timeout 900 "$top/mypackets" --unproved "${@:3}" >output 2>errors
        printf '%d\n' "$?" >status
    ) &
}

# unproved WHAT NAME STATUS OUTPUT: what began as NAME wrote OUTPUT, and says that nothing was proved
unproved() {
    mv -- "$2/output" output && mv -- "$2/errors" errors
    compare "$1" "$3" "$4" $'mypackets: runs without proof
mypackets: nothing of this run was proved\n' "$(<"$2/status")"
}

usage=$'usage: mypackets COMMAND ARGS\n'
statement=$'statement_id: 1\nnum_columns: 1\nnum_params: 2\nwarning_count: 0\nrest: 0\nbytes: 000100000001000200000000\n'
: >input

"$top/mypackets" >build_output 2>build_errors
hold 'the first call' "$( (($? == 2)) || cat build_errors)"
"$top/mypackets" conversation <input >build_output 2>build_errors
hold 'the first conversation' "$( (($? == 0)) || cat build_errors)"
if ((failed > 0)); then
    printf '%d passed, %d failed\n' "$passed" "$failed"
    exit 1
fi

begin_unproved statement '' stmt 000100000001000200000000
begin_unproved usage ''
begin_unproved rows $'i1\ni2\n' bulk 1 31

expect 'a statement packet' 0 "$statement" "$top/mypackets" stmt 000100000001000200000000
expect 'a statement packet, by a link' 0 "$statement" ./linked stmt 000100000001000200000000
expect 'a cut statement packet' 1 $'refused: UnexpectedEof\n' "$top/mypackets" stmt 0001000000010002000000
expect 'a statement packet of status 1' 1 $'refused: InvalidData\n' "$top/mypackets" stmt 010100000001000200000000
expect 'no word' 2 "$usage" "$top/mypackets"
expect 'an unknown command' 2 "$usage" "$top/mypackets" nothing
expect 'an empty word' 2 "$usage" "$top/mypackets" ''
expect 'a command without its words' 2 "$usage" "$top/mypackets" stmt
expect 'a word too many' 2 "$usage" "$top/mypackets" stmt 00 00
expect 'no digits' 2 "$usage" "$top/mypackets" stmt 'not hex'
expect 'half a byte' 2 "$usage" "$top/mypackets" stmt 000
expect 'digits in two parts' 2 "$usage" "$top/mypackets" ok common 800000 '00000002400000001100 0f'
handshake=0a352e352e352d31302e31312e31392d4d6172696144422d302b646562313275312d6c6f67000d000000475f27415460655d00fef72d0200ff81150000000000001d0000002436265a7048575b427a5e49006d7973716c5f6e61746976655f70617373776f726400
expect 'a handshake' 0 "protocol_version: 10
server_version: x352e352e352d31302e31312e31392d4d6172696144422d302b646562313275312d6c6f67
version: 5.5.5
mariadb_version: 10.11.19
connection_id: 13
scramble_1: x475f27415460655d
scramble_2: x2436265a7048575b427a5e4900
capabilities: 2181036030
default_collation: 45
status_flags: 2
mariadb_ext_capabilities: 29
auth_plugin_name: x6d7973716c5f6e61746976655f70617373776f7264
rest: 0
bytes: $handshake
" "$top/mypackets" handshake "$handshake"
dump=1e04002a0000000000000004000000000000005d00000000020000000000013e11fa4771ca11e19e33c80aa942956206617070010000000000000001000000000000006400000000000000a0b1c2d3e4f56789abcdef012345678900010000000000000001000000000000003200000000000000
dump_lines="server_id: 42
flags: 4
filename: x
pos: 4
sid: 3e11fa47-71ca-11e1-9e33-c80aa9429562:app:1-99
sid: a0b1c2d3-e4f5-6789-abcd-ef0123456789:1-49
rest: 0
bytes: $dump
"
longer=1e04002a0000000000000004000000000000005e00000000020000000000013e11fa4771ca11e19e33c80aa942956206617070010000000000000001000000000000006400000000000000a0b1c2d3e4f56789abcdef01234567890001000000000000000100000000000000320000000000000000
expect 'a dump by GTID set' 0 "$dump_lines" "$top/mypackets" gtid "$dump"
expect 'a dump by GTID set, read strictly' 0 "$dump_lines" "$top/mypackets" gtidstrict "$dump"
expect 'a byte after the last sid' 0 "$dump_lines" "$top/mypackets" gtid "$longer"
expect 'a byte after the last sid, read strictly' 1 $'refused: InvalidData\n' "$top/mypackets" gtidstrict "$longer"
expect 'the text of a sid' 0 $'sid: 3e11fa47-71ca-11e1-9e33-c80aa9429562:domain_a:5\n' "$top/mypackets" \
    sid 3E11FA47-71CA-11E1-9E33-C80AA9429562:domain_a:5-5
expect 'the text of no sid' 1 $'refused: Gno\n' "$top/mypackets" sid 3E11FA47-71CA-11E1-9E33-C80AA9429562:4-3
expect 'the text of a GTID set' 0 'sid: 3e11fa47-71ca-11e1-9e33-c80aa9429562:1-8
sid: 3e11fa47-71ca-11e1-9e33-c80aa9429562:app:4-5
sid: a0b1c2d3-e4f5-6789-abcd-ef0123456789:7
as_servers_write: yes
' "$top/mypackets" gtidset $'3e11fa47-71ca-11e1-9e33-c80aa9429562:1-8:app:4-5,\na0b1c2d3-e4f5-6789-abcd-ef0123456789:7'
expect 'a GTID set in another order' 0 'sid: a0b1c2d3-e4f5-6789-abcd-ef0123456789:7
sid: 3e11fa47-71ca-11e1-9e33-c80aa9429562:1-8
as_servers_write: no
' "$top/mypackets" gtidset $'a0b1c2d3-e4f5-6789-abcd-ef0123456789:7,\n3e11fa47-71ca-11e1-9e33-c80aa9429562:1-8'
expect 'the text of no GTID set' 1 $'refused: Uuid\n' "$top/mypackets" gtidset 3e11fa47-71ca-11e1-9e33-c80aa9429562:1,app:2
fails_to_write 'a statement packet on a full device' "$top/mypackets" stmt 000100000001000200000000
fails_to_write 'a bad call on a full device' "$top/mypackets"

# bulk_on INPUT WHAT STATUS OUTPUT WORD ..: `bulk` with these words, on this input
bulk_on() {
    printf '%s' "$1" >input
    expect "$2" "$3" "$4" "$top/mypackets" bulk "${@:5}"
    : >input
}

bulk_on $'i1\ni2\ni3\ni4\ni5\n' 'five rows' 0 'request: fa0100000080000800000100000000000000000200000000000000
request: fa010000000000000300000000000000000400000000000000
request: fa010000000000000500000000000000
requests: 3
rows: 5
fewest: yes
' 1 31
bulk_on $'i1\ni2\ni3\ni4\ni5' 'five rows, the last without a line feed, one a request' 0 'request: fa0100000080000800000100000000000000
request: fa010000000000000200000000000000
request: fa010000000000000300000000000000
request: fa010000000000000400000000000000
request: fa010000000000000500000000000000
requests: 5
rows: 5
fewest: yes
' 1 31 rows=1
bulk_on $'i1\ni2\ni3\ni4\ni5\n' 'five rows with types always' 0 'request: fa0100000080000800000100000000000000000200000000000000
request: fa0100000080000800000300000000000000000400000000000000
request: fa0100000080000800000500000000000000
requests: 3
rows: 5
fewest: yes
' 1 31 types
bulk_on $'\n\n\n' 'empty rows with types always, two a request' 0 $'request: fa010000008000\nrequest: fa010000008000\nrequests: 2\nrows: 3\nfewest: yes\n' 1 11 types rows=2
bulk_on '' 'no rows' 0 $'requests: 0\nrows: 0\nfewest: yes\n' 1 31
bulk_on $'\n' 'an empty row' 0 $'request: fa010000008000\nrequests: 1\nrows: 1\nfewest: yes\n' 1 11
bulk_on $'i1\ni1 i2\n' 'rows of two lengths' 1 $'refused: MixedArity\n' 1 31
bulk_on "i1
b$(printf '%0200d' 0)
" 'a row too large after another' 1 $'request: fa0100000080000800000100000000000000\nrefused: RowTooLarge\n' 1 31
bulk_on $'N\ni5\n' 'a row too large with types' 1 $'request: fa010000008000060001\nrefused: RowTooLarge\n' 1 21 types
bulk_on "$(printf 'N\n%.0s' {1..100})"$'\ni7\n' 'a column that begins with 100 NULLs, under a declared type' 0 "request: fa0100000080000800$(printf '01%.0s' {1..51})
request: fa010000000000$(printf '01%.0s' {1..49})
request: fa010000000000000700000000000000
requests: 3
rows: 101
fewest: yes
" 1 64 columns=8
bulk_on $'i1\n\n' 'types always, two rows a request, and declared types that a row does not fit' 1 $'refused: MixedArity\n' \
    1 31 types rows=2 columns=8u
bulk_on $'u5\ni-1\n' 'an unsigned column with -1' 1 $'refused: MixedTypes\n' 1 31 columns=8u
bulk_on $'i5\nD\n' 'a column of four bytes, with DEFAULT' 0 $'request: fa0100000080000300000500000002\nrequests: 1\nrows: 2\nfewest: yes\n' 1 31 columns=3
bulk_on $'D\n' 'DEFAULT without declared types' 2 "$usage" 1 31
bulk_on $'i5\n' 'a word that is no type' 2 "$usage" 1 31 columns=LONGLONG
bulk_on $'i1\nx\n' 'a line that is no row' 2 "$usage" 1 31
bulk_on $'i1\n' 'a limit below 4' 2 "$usage" 1 3
bulk_on $'i1\n' 'no row a request' 2 "$usage" 1 31 rows=0
bulk_on $'i1\n' 'options in the other order' 2 "$usage" 1 31 rows=1 types

# recorded INPUT WHAT STATUS OUTPUT WORD ..: `conversation` with these words, on this input
recorded() {
    printf '%s' "$1" >input
    expect "$2" "$3" "$4" "$top/mypackets" conversation "${@:5}"
    : >input
}

# (too many connections, as MariaDB says it in place of the greeting)
many='< 17000000ff1004546f6f206d616e7920636f6e6e656374696f6e73'
asked=$'usage: mypackets conversation [MAX] [caps=CAPS] [mariadb=CAPS] [--deciphered] [--json] [--sum]\n'
recorded '' 'no recording' 0 ''
recorded "$many" 'an error in place of the greeting' 0 $'< 0 unsolicited_error\nerror: 1040\nsql_state: none\nmessage: x546f6f206d616e7920636f6e6e656374696f6e73\n'
recorded $'# a ping\n\n> 0100 0000 0e\r\n< 07000001 00\n< 000002000000\n' 'a connection that is taken up' 0 \
    $'> 0 command\ncommand: COM_PING\n< 1 ok\naffected_rows: 0\nlast_insert_id: none\nstatus_flags: 2\nwarnings: 0\ninfo: none\n' caps=0200
recorded "$many" 'a payload past the limit' 1 $'refused: TooLong\n' 22
recorded "$many"$'\n> 010000000e\n' 'a packet that does not come' 1 \
    $'< 0 unsolicited_error\nerror: 1040\nsql_state: none\nmessage: x546f6f206d616e7920636f6e6e656374696f6e73\n> 0 refused\nbegins: x0e\nrefused: Unexpected\n'
recorded $'> 010000000e\n< 5b33206279746573206d697373696e6720696e20636170747572652066696c655d00\n> 07\n> 010000000e\n< 0700000100000002000000\n' 'bytes that are missing' 1 \
    $'> 0 command\ncommand: COM_PING\n< lost\nmissing: 3\n> resync\nskipped_bytes: 1\n> 0 command\ncommand: COM_PING\n< resync\nskipped_bytes: 0\n< 1 ok\naffected_rows: 0\nlast_insert_id: none\nstatus_flags: 2\nwarnings: 0\ninfo: none\n' caps=0200
recorded "> 74000000$dump"$'\n< 0a000001ff150423323830303078\n' 'a dump in a conversation: the names are those of gtid' 0 \
    $'> 0 command\ncommand: COM_BINLOG_DUMP_GTID\nserver_id: 42\nflags: 4\nfilename: x\npos: 4\n< 1 error\nerror: 1045\nsql_state: x3238303030\nmessage: x78\n' caps=0200
recorded $'> 010000000e\n< 010000ff00\n< 0700000100000002000000\n' 'a line of the server that is no answer' 0 \
    $'> 0 command\ncommand: COM_PING\n< resync\nskipped_bytes: 5\n< 1 ok\naffected_rows: 0\nlast_insert_id: none\nstatus_flags: 2\nwarnings: 0\ninfo: none\n' caps=0200
recorded $'> 010000000e\n< 0100000100\n< 0700000100000002000000\n' 'nothing to be taken up at' 1 \
    $'> 0 command\ncommand: COM_PING\n< 1 refused\nbegins: x00\nrefused: Unexpected\nexpected: command\nexpected: ok\nexpected: error\n> no_resync\nskipped_bytes: 0\n< no_resync\nskipped_bytes: 11\n' caps=0200
recorded '< 0100000' 'half a byte at the end' 0 ''
recorded '< 01x0' 'a line that is none' 1 $'refused: InvalidInput\n'
recorded '! 00' 'another sign' 1 $'refused: InvalidInput\n'
recorded "$many" 'no number' 2 "$asked" many
recorded "$many" 'no flags' 2 "$asked" caps=
fails_to_write 'a conversation on a full device' "$top/mypackets" conversation --sum
fails_to_write 'bulk requests on a full device' "$top/mypackets" bulk 1 31
"$top/mypackets" bulk 1 31 <. >output 2>errors
hold 'an input that cannot be read' "$( (($? == 3)) && [[ ! -s output && ! -s errors ]] || printf 'it did not end with status 3 alone')"

wait
unproved 'a statement packet without proof' statement 0 "$statement"
unproved 'no word without proof' usage 2 "$usage"
unproved 'two rows without proof' rows 0 'request: fa0100000080000800000100000000000000000200000000000000
requests: 1
rows: 2
fewest: yes
'

# A repository of two libraries, and an rt that builds nothing, for what the first run says.
mkdir -p -- small/bin small/tools small/crates/{mysql_upper,mysql_lower,mypackets}/{src,specs,proofs,out}
cp -- "$top/mypackets" small/ && cp -- "$top/tools/sources.sh" small/tools/
printf '%s\n' 'mysql_lower:' 'mysql_upper: mysql_lower  # after the one below it' 'mypackets: mysql_upper kit' 'other: mysql_upper' >small/crates.txt
printf '%s\n' '#!/bin/sh' 'test "$1" = lib && sleep "${LIB_SECONDS:-0}" && exit "${LIB_STATUS:-0}"' \
    'printf "#!/bin/sh\necho ran \"\$@\"\n" >out/new.$$ && chmod +x out/new.$$ && mv out/new.$$ out/mypackets' \
    'test "$*" = "run -- stmt 00"' >small/bin/rt
printf '%s\n' stmt 00 >small/crates/mypackets/args
for it in lower upper; do : >"small/crates/mysql_$it/src/lib.rt"; done
chmod +x small/bin/rt
# said WHY OFFERED: what a run says that builds the program
said() {
    printf 'mypackets: %s, so it is proved and built first
mypackets: that takes up to 1 min from nothing on four processors, and less where libraries are proved already
mypackets: meanwhile ./mypackets --unproved WORDS answers without proof
%smypackets: 1 of 3: mysql_lower
' "$1" "${2+mypackets: and ./mypackets --built WORDS runs the program as it was built
}"
}
others=$'mypackets: 2 of 3: mysql_upper\nmypackets: 3 of 3: mypackets\n'
first=$(said 'the program has not been built yet')$'\n'
PATH=$PWD/small/bin:$PATH
small/mypackets --built stmt >output 2>errors
compare 'a program that is not built' 125 '' $'mypackets: the program has not been built yet\n' "$?"
LIB_STATUS=7 small/mypackets stmt >output 2>errors
compare 'a first run that builds nothing' 125 '' "${first}mypackets: the program could not be built (rt ended with status 7)
" "$?"
small/mypackets stmt >output 2>errors
compare 'a first run' 0 $'ran stmt\n' "$first$others" "$?"
small/mypackets stmt >output 2>errors
compare 'a second run' 0 $'ran stmt\n' '' "$?"
cp -r -- small copied && find copied/crates -name '*.rt' -exec touch -d '+1 hour' {} +
copied/mypackets stmt >output 2>errors
compare 'a run in a copy with other file times' 0 $'ran stmt\n' '' "$?"
echo '// changed' >copied/crates/mysql_upper/src/lib.rt
copied/mypackets --built stmt >output 2>errors
compare 'a program of earlier sources' 0 $'ran stmt\n' '' "$?"
copied/mypackets stmt >output 2>errors
compare 'a run after an edit' 0 $'ran stmt\n' \
    "$(said 'crates/mysql_upper/src/lib.rt has changed since the program was built' offered)"$'\n'"$others" "$?"
: >copied/crates/mysql_lower/specs/New.antt
copied/mypackets stmt >output 2>errors
compare 'a run after a file was added' 0 $'ran stmt\n' \
    "$(said 'crates/mysql_lower/specs/New.antt has changed since the program was built' offered)"$'\n'"$others" "$?"
sed -i 's/^mysql_lower:/mysql_lower: kit/' copied/crates.txt
copied/mypackets stmt >output 2>errors
compare 'a run after a change of crates.txt' 0 $'ran stmt\n' \
    "$(said 'crates.txt has changed since the program was built' offered)"$'\n'"$others" "$?"
rm -- copied/crates/mypackets/out/mypackets.sources
copied/mypackets stmt >output 2>errors
compare 'a program that rt built' 0 $'ran stmt\n' \
    "$(said 'nothing says which sources the program was built from' offered)"$'\n'"$others" "$?"
# (each begins to build before the other has ended)
rm -- small/crates/mypackets/out/mypackets
LIB_SECONDS=0.5 small/mypackets stmt >other_output 2>other_errors &
# ("$!" names what compare starts, once it has run)
other=$!
LIB_SECONDS=0.5 small/mypackets stmt >output 2>errors
compare 'a first run beside another' 0 $'ran stmt\n' "$first$others" "$?"
wait "$other"
status=$?
mv -- other_output output && mv -- other_errors errors
compare 'a first run that another is beside' 0 $'ran stmt\n' "$first$others" "$status"

printf '%d passed, %d failed\n' "$passed" "$failed"
((failed == 0))
