#!/usr/bin/env bash
# The built program from outside: each example gives its stored output, its journal and its audit, an input that can't
# be read is a read fault and a full output a write fault, and words that ask for no task are usage.
#
#     tests/program.sh [--quick]   the program to be checked (build/checked), or the quick one, built where that is due
set -u
cd "$(dirname "$0")/.." || exit 1

# The program itself, without what `./kds` adds to its words (tests/help.sh). One that doesn't end is ended, with the
# status 124.
case $* in
    '') program=$(build/checked) || exit ;;
    --quick) program=$(build/try --name) || exit ;;
    --help | -h) sed -n '/^#!/d; /^#/!q; s/^# \{0,1\}//p' tests/program.sh; exit ;;
    *) echo 'usage: tests/program.sh [--quick]; --help says more' >&2; exit 2 ;;
esac
kds=(timeout 60 "$program")

failed=0
passed=0
check() { # NAME WANTED GIVEN
    if [ "$2" = "$3" ]; then
        passed=$((passed + 1))
    else
        failed=$((failed + 1))
        printf 'FAILED %s: wanted %s, given %s\n' "$1" "$2" "$3"
        # each further run would wait as long
        [ "$3" != 124 ] || exit 1
    fi
}

# Files are compared byte by byte: the shell would drop line feeds at an end, and a stored output that isn't there is a
# fault.
same() { # NAME WANTED-FILE GIVEN-FILE
    if cmp -s "$2" "$3"; then
        passed=$((passed + 1))
    else
        failed=$((failed + 1))
        printf 'FAILED %s: not as %s: %s\n' "$1" "$2" "$(diff "$2" "$3" 2>&1 | head -n 4)"
    fi
}
holds() { # NAME TEXT GIVEN-FILE
    printf '%s' "$2" > "$work/wanted"
    same "$1" "$work/wanted" "$3"
}

work=$(mktemp -d) || exit 1
trap 'rm -rf "$work"' EXIT

for name in first leases early-mark workers aggregates rolling-restart rolling-restart-by-stops every-entry incident \
    mid-life late-delivery stuck-child scaling request-faults requests-at-the-edges hostile-requests; do
    "${kds[@]}" replay < "examples/$name.txt" > "$work/out" 2> "$work/err"
    check "$name.txt: status" 0 $?
    same "$name.txt: output" "examples/$name.out" "$work/out"
    holds "$name.txt: errors" '' "$work/err"
done

for name in leases workers every-entry incident mid-life late-delivery stuck-child scaling; do
    "${kds[@]}" replay --journal < "examples/$name.txt" > "$work/out" 2> "$work/err"
    check "$name.txt, journal: status" 0 $?
    same "$name.txt, journal: output" "examples/$name.journal" "$work/out"
    holds "$name.txt, journal: errors" '' "$work/err"
done

# A rolling restart delivers nothing twice where each worker hands its leases on; where they are only stopped, it does,
# and so does a worker that has lost its lease.
for name in rolling-restart:0 rolling-restart-by-stops:5 incident:3 mid-life:8 late-delivery:2; do
    "${kds[@]}" replay --journal < "examples/${name%:*}.txt" > "$work/out" 2> "$work/err"
    check "${name%:*}.txt, journal: status" 0 $?
    names=examples/${name%:*}.names
    [ "${name%:*}" = mid-life ] || names=
    awk -f tools/delivered-twice.awk ${names:+"$names"} "$work/out" > "$work/twice" 2>&1
    same "${name%:*}.txt: which were delivered twice" "examples/${name%:*}.twice" "$work/twice"
    check "${name%:*}.txt: delivered twice" "${name#*:}" "$(tail -n 1 "$work/twice")"
    "${kds[@]}" audit < "$work/out" > "$work/verdict" 2> "$work/err"
    check "${name%:*}.txt, audit: status" 0 $?
    # each line of a journal but its first and its last is an entry
    holds "${name%:*}.txt, audit: verdict" "sound $(($(wc -l < "$work/out") - 2))"$'\n' "$work/verdict"
    holds "${name%:*}.txt, audit: errors" '' "$work/err"
done

# Who held which lease when, by the names of the story.
for name in incident mid-life; do
    awk -f tools/held.awk "examples/$name.names" "examples/$name.journal" > "$work/out" 2>&1
    same "$name.journal: who held which lease" "examples/$name.held" "$work/out"
done

for name in leases:0 workers:0 every-entry:0 stale-mark:1; do
    "${kds[@]}" audit < "examples/${name%:*}.journal" > "$work/out" 2> "$work/err"
    check "${name%:*}.journal: status" "${name#*:}" $?
    same "${name%:*}.journal: output" "examples/${name%:*}.audit" "$work/out"
    holds "${name%:*}.journal: errors" '' "$work/err"
done

"${kds[@]}" audit < /dev/null > "$work/out" 2> "$work/err"
check 'no journal: status' 1 $?
holds 'no journal: output' $'entry 1 Form\n' "$work/out"

"${kds[@]}" replay --journal < examples/bad-line.txt > "$work/out" 2> "$work/err"
check 'bad-line.txt, journal: status' 3 $?
check 'bad-line.txt, journal: last line' '1000 0 put 1 0 1 16955237001963240173058271559858726497 2 1' \
    "$(tail -n 1 "$work/out")"
holds 'bad-line.txt, journal: errors' $'line 3: not a schedule line\n' "$work/err"

"${kds[@]}" replay < /dev/null > "$work/out" 2> "$work/err"
check 'empty schedule: status' 0 $?
holds 'empty schedule: output' '' "$work/out"

"${kds[@]}" replay < examples/bad-line.txt > "$work/out" 2> "$work/err"
check 'bad-line.txt: status' 3 $?
same 'bad-line.txt: output' examples/first.out "$work/out"
holds 'bad-line.txt: errors' $'line 3: not a schedule line\n' "$work/err"

if [ -e /dev/full ]; then
    "${kds[@]}" replay < examples/first.txt > /dev/full 2> "$work/err"
    check 'full output: status' 5 $?
    holds 'full output: errors' $'write fault\n' "$work/err"
    "${kds[@]}" audit < examples/workers.journal > /dev/full 2> "$work/err"
    check 'full output of an audit: status' 5 $?
    holds 'full output of an audit: errors' $'write fault\n' "$work/err"
else
    echo 'skipped: there is no /dev/full on this machine'
fi

"${kds[@]}" answer < examples/requests.http > "$work/out" 2> "$work/err"
check 'requests.http: status' 0 $?
same 'requests.http: output' examples/responses.http "$work/out"
holds 'requests.http: errors' '' "$work/err"

head -c 100 examples/requests.http | "${kds[@]}" answer > "$work/out" 2> "$work/err"
check 'cut request: status' 7 $?
holds 'cut request: output' '' "$work/out"
holds 'cut request: errors' $'input ended inside a message\n' "$work/err"

printf 'GET / HTTP/1.1\r\n\r\n' | "${kds[@]}" answer > "$work/out" 2> "$work/err"
check 'refused request: status' 10 $?
holds 'refused request: output' \
    $'HTTP/1.1 411 Length Required\r\nContent-Length: 0\r\nConnection: close\r\n\r\n' "$work/out"
holds 'refused request: errors' $'message refused\n' "$work/err"

printf '1000 api ListStreams {}\n' > "$work/schedule"
"${kds[@]}" replay < "$work" > "$work/out" 2> "$work/err"
check 'read fault: status' 4 $?
holds 'read fault: output' '' "$work/out"
holds 'read fault: errors' $'read fault\n' "$work/err"

"${kds[@]}" replay --journal < "$work/schedule" > "$work/out" 2> "$work/err"
check 'replay --journal: status' 0 $?
holds 'replay --journal: output' $'journal 2\nend 1000\n' "$work/out"
holds 'replay --journal: errors' '' "$work/err"

"${kds[@]}" drill 1 2 0 > "$work/out" 2> "$work/err"
check 'drill 1 2 0: status' 0 $?
holds 'drill 1 2 0: output' "$(printf 'shardId-00000000000%d 0 TRIM_HORIZON\n' 0 1 2 3)"$'\ntotal 0 0\n' "$work/out"
holds 'drill 1 2 0: errors' '' "$work/err"

# Words of no task are usage: nothing is read, and nothing is written but to the error output. Each line has words, one
# after each space; of the first line there are none.
usage='usage: kds replay [--journal] | answer | audit | serve PORT MEMBERS | drill NUMBER WORKERS RECORDS'
while IFS= read -r line; do
    words=()
    rest=$line
    while [ -n "$rest" ]; do
        words+=("${rest%%' '*}")
        case $rest in
            *' '*) rest=${rest#*' '}; [ -n "$rest" ] || words+=('') ;;
            *) rest='' ;;
        esac
    done
    left=$({
        "${kds[@]}" "${words[@]}" > "$work/out" 2> "$work/err"
        echo $? > "$work/status"
        cat
    } < "$work/schedule")
    check "words '$line': status" 2 "$(cat "$work/status")"
    holds "words '$line': errors" "$usage"$'\n' "$work/err"
    holds "words '$line': output" '' "$work/out"
    check "words '$line': input that is left" "$(cat "$work/schedule")" "$left"
done << 'END'

 
play
Replay
repla
replays
--
-h
--help
--version
help
help replay
--journal
--journal replay
replay x
replay 
replay --
replay -- --journal
replay -j
replay --journa
replay --journal=x
replay --journal --journal
replay --help
answer x
answer 
answer --journal
audit -
serve
serve 4567
serve 0 3
serve 65536 3
serve 4567 0
serve 4567 65
serve 04567 3
serve +4567 3
serve 4567 3 3
drill 1 2
drill 01 2 0
drill 1 0 0
drill 1 65 0
drill 1 2 1000001
drill 18446744073709551616 2 0
drill 1 2 0 0
END

# So is a word that isn't UTF-8, alone or after a task's words.
for words in $'\xff' $'replay\xff' $'answer \xc3\x28' $'replay \xed\xa0\x80' $'drill 1 2 \xff'; do
    # shellcheck disable=SC2086
    "${kds[@]}" $words < "$work/schedule" > "$work/out" 2> "$work/err"
    status=$?
    shown=$(printf '%q' "$words")
    check "words $shown: status" 2 "$status"
    holds "words $shown: errors" "$usage"$'\n' "$work/err"
    holds "words $shown: output" '' "$work/out"
done

printf '%d passed, %d failed\n' "$passed" "$failed"
[ "$failed" -eq 0 ]
