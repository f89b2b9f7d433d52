#!/usr/bin/env bash
# Help, version, and what `./kds` and `./dev` say about a slip: which word, line or port is wrong. The program's own
# line comes first, and the exit status is the program's.
set -u
cd "$(dirname "$0")/.." || exit 1
case $* in
    '') ;;
    --help | -h) sed -n '/^#!/d; /^#/!q; s/^# \{0,1\}//p' tests/help.sh; exit ;;
    *) echo 'usage: tests/help.sh; --help says more' >&2; exit 2 ;;
esac

failed=0
passed=0
work=$(mktemp -d) || exit 1
trap 'rm -rf "$work"' EXIT
tell() { # HOLDS NAME WHAT
    if [ "$1" -eq 0 ]; then
        passed=$((passed + 1))
    else
        failed=$((failed + 1))
        printf 'FAILED %s: %s\n' "$2" "$3"
    fi
}

# A command by its words: its status, the program's own line on the error output, and a part of the line after it.
slip() { # STATUS OWN-LINE PART WORD..
    local status=$1 own=$2 part=$3
    shift 3
    timeout 60 "$@" > "$work/out" 2> "$work/err"
    local given=$?
    [ "$given" -eq "$status" ] && [ "$(head -n 1 "$work/err")" = "$own" ] && [[ "$(sed 1d "$work/err")" == *"$part"* ]]
    tell $? "$*" "status $given, $(cat "$work/err")"
}

# A command that answers on the output, with status 0 and nothing on the error output.
answers() { # PART WORD..
    local part=$1
    shift
    timeout 60 "$@" < /dev/null > "$work/out" 2> "$work/err"
    local given=$?
    [ "$given" -eq 0 ] && [[ "$(cat "$work/out")" == *"$part"* ]] && [ ! -s "$work/err" ]
    tell $? "$*" "status $given, $(head -n 2 "$work/out" "$work/err")"
}

# The program to be checked, without a word of a build before its own.
KDS=$(build/checked) || exit
export KDS
usage='usage: kds replay [--journal] | answer | audit | serve PORT MEMBERS | drill NUMBER WORKERS RECORDS'
for words in --help -h help 'help serve' 'serve --help' 'replay -h'; do
    # shellcheck disable=SC2086
    answers './kds serve PORT MEMBERS' ./kds $words
done
answers "kds $(cat VERSION)" ./kds --version
answers "runs $KDS, which KDS names" ./kds --version
for words in --help -h help; do
    answers './dev build' ./dev $words
done
answers "kds $(cat VERSION)" ./dev --version
# Each text of help fits a terminal of 100 columns, names the tools beside replay, and has an example.
for words in './kds --help' ./dev 'tools/schedule --help' 'tools/dump --help'; do
    wide=$($words 2>&1 < /dev/null | awk 'length($0) > 100')
    [ -z "$wide" ]
    tell $? "$words, its columns" "$wide"
done
for part in tools/schedule tools/dump tools/record tools/journal.html tools/differences \
    'after a source changed' 'examples/first.txt' '    10   message refused'; do
    answers "$part" ./kds --help
done

slip 2 "$usage" '--help lists' ./kds
slip 2 "$usage" 'did you mean serve' ./kds server 4567 17
slip 2 "$usage" 'did you mean replay' ./kds Replay
slip 2 "$usage" 'there is no command' ./kds foo
slip 2 "$usage" 'there is no command' ./kds $'\xff'
slip 2 "$usage" 'PORT, 1 to 65535, and MEMBERS' ./kds serve 4567
slip 2 "$usage" 'PORT is a number from 1 to 65535, not 0' ./kds serve 0 17
slip 2 "$usage" 'PORT is a number from 1 to 65535, not 70000' ./kds serve 70000 17
slip 2 "$usage" 'PORT is a number from 1 to 65535, not 18446744073709551617' ./kds serve 18446744073709551617 17
slip 2 "$usage" 'is a number from 1 to 64, not 100' ./kds serve 4567 100
slip 2 "$usage" 'needless zeros' ./kds serve 04567 3
slip 2 "$usage" 'takes no flags' ./kds serve --port 4567
slip 2 "$usage" 'RECORDS is a number from 0 to 1000000, not 2000000' ./kds drill 7 8 2000000
slip 2 "$usage" 'NUMBER is a number from 0 to 18446744073709551615' ./kds drill 18446744073709551616 8 1
slip 2 "$usage" 'drill takes three numbers' ./kds drill 7
slip 2 "$usage" './kds replay < examples/first.txt' ./kds replay examples/first.txt
slip 2 "$usage" './kds audit < examples/workers.journal' ./kds audit examples/workers.journal
slip 2 "$usage" 'the one flag is --journal' ./kds replay --jornal
slip 2 "$usage" 'comes after replay' ./kds --journal replay
slip 2 "$usage" './kds replay --journal < examples/first.txt' ./kds replay --journal examples/first.txt

line() { # PART LINE, as printf takes it: after a good line
    # shellcheck disable=SC2059 # it is one
    { echo '1000 api ListStreams {}'; printf "$2"; } > "$work/schedule"
    slip 3 'line 2: not a schedule line' "$1" ./kds replay < "$work/schedule"
}
line 'has no line feed' '1000 api ListStreams {}'
line 'is empty' '\n'
line 'is a comment' '# why\n'
line 'CR LF' '1000 step\r\n'
line 'first field must be a time in milliseconds (no leading zeros), not "api"' 'api ListStreams {}\n'
line 'first field must be a time in milliseconds (no leading zeros), not "01"' '01 api ListStreams {}\n'
line 'a time is in milliseconds, below 2^62: this has 19 digits' '4611686018427387904 api ListStreams {}\n'
line 'this has 20 digits' '17959611010000000000 api ListStreams {}\n'
line 'tools/schedule makes them of dates' '2026-11-29T14:05:33Z api ListStreams {}\n'
line 'write one space after the time' '1000  api ListStreams {}\n'
line 'write one space after api' '1000 api  ListStreams {}\n'
line 'write one space between two fields' '1000 raw 1  survey\n'
line 'after api an operation is missing' '1000 api\n'
line 'after the actor a command is missing' '1000 raw 1\n'
line 'after KIND: nothing, latest, or time' '1000 worker w1 tally soon\n'
line 'second field is api' '1000 apt ListStreams {}\n'
line 'after the operation a space and a body are missing' '1000 api ListStreams\n'
line 'the operation is 1 to 64' '1000 api List-Streams {}\n'
line 'the actor is 1 to 999' '1000 raw 0 survey\n'
line 'there is no command tak' '1000 raw 1 tak 1/0 0 w1\n'
line 'KEY is STREAM/SHARD' '1000 raw 1 take 10 0 w1\n'
line 'the form is mark TENURE COUNTER NUMBER' '1000 raw 1 mark 1 2\n'
line 'KIND is tally, lines or users' '1000 worker w1\n'
line 'step has one field' '1000 step\n'
line 'hand has two fields' '1000 hand 1000\n'
line 'not by a tab' '1000\tstep\t1000\n'
line 'not text in UTF-8' '1000 step \0\n'
slip 3 'line 1: not a schedule line' 'looks like a journal: use audit' ./kds replay < examples/workers.journal
whole() { # PART FILE: one whose first line is none, for what the file is
    slip 3 'line 1: not a schedule line' "$1" ./kds replay < "$2"
}
{ printf '\xef\xbb\xbf'; cat examples/first.txt; } > "$work/marked"
whole 'byte order mark' "$work/marked"
gzip -c examples/first.txt > "$work/zipped"
whole 'not text in UTF-8' "$work/zipped"
{ printf '\xff\xfe'; sed 's/./&\x00/g' examples/first.txt; } > "$work/wide"
whole 'not text in UTF-8' "$work/wide"
slip 3 'line 1: not a schedule line' 'docs/formats.md' ./kds replay < <(echo foo)

# A file that is no journal: the verdict on the output, and on the error output why.
journal() { # VERDICT WHY FILE
    ./kds audit < "$3" > "$work/out" 2> "$work/err"
    local given=$?
    [ "$given" -eq 1 ] && [ "$(cat "$work/out")" = "$1" ] \
        && [ "$(wc -l < "$work/err")" -eq 1 ] \
        && [[ $(cat "$work/err") == "kds: "*"$2"* ]]
    tell $? "an audit of $3" "status $given, $(cat "$work/out" "$work/err")"
}
mended() { # NAME SCRIPT: a sound journal, changed by sed
    sed "$2" examples/workers.journal > "$work/$1"
    echo "$work/$1"
}
lost="Lost U: the row's tenure is U and not T; U is 0 if the row names no tenure (docs/leases.md, Commands)"
journal 'entry 33 Lost' "entry 33 is line 34: 5001 1001 marked 5 4 5; $lost" examples/stale-mark.journal
: > "$work/empty"
journal 'entry 1 Form' 'the input is empty' "$work/empty"
journal 'entry 1 Form' 'looks like a schedule' examples/first.txt
journal 'entry 1 Form' 'looks like the answers' examples/first.out
journal 'entry 2 Form' 'first line of a journal of today is' "$(mended headless 1d)"
journal 'entry 1 Form' 'first line of a journal is' "$(mended named '1s/^/x/')"
printf '1000 0 made 1 s 1\n1000 0 gone 2\nend 1000\n' > "$work/first"
journal "entry 2 $(./kds audit < "$work/first" 2> /dev/null | sed 's/.* //')" \
    'entry 2 is line 2: 1000 0 gone 2' "$work/first"
journal 'entry 1 Form' 'CR LF' "$(mended returns 's/$/\r/')"
journal 'entry 1 Form' 'byte order mark' "$(mended mark '1s/^/\xef\xbb\xbf/')"
gzip -c examples/workers.journal > "$work/zipped"
journal 'entry 1 Form' 'not text in UTF-8' "$work/zipped"
journal 'entry 38 Form' 'is missing: the journal is cut off' "$(mended cut "\$d")"
head -c -1 examples/workers.journal > "$work/open"
journal 'entry 38 Form' 'has no line feed' "$work/open"
journal 'entry 3 Form' 'line 4 is not an entry: 2026-11-29' "$(mended dated '4s/^[0-9]*/2026-11-29/')"
journal 'entry 3 Form' 'line 4 is not an entry: # why' "$(mended told '4s/.*/# why/')"
journal 'entry 3 Form' 'not by a tab' "$(mended tabbed '4s/ /\t/')"
./kds audit < <(cat examples/first.txt) > "$work/out" 2> "$work/err"
[ $? -eq 1 ] && grep -q 'docs/formats.md, Journal' "$work/err"
tell $? 'an audit of a pipe' "$(cat "$work/err")"

# Each refusal that an audit can name has its condition in one line. Those of a command that only reads it can't.
explained() { # NAME
    local said
    said=$(here=. && source hints/slips && rule "$1")
    [[ $said == "$1"*': '* ]] && [ "$(wc -l <<< "$said")" -eq 1 ] && [ "${#said}" -le 200 ]
    tell $? "the rule $1" "$said"
}
for name in $(sed -n 's/^ *Refusal::\([A-Za-z]*\).* => "\1",$/\1/p' crates/kcl_script_fields/src/answer.rt); do
    [[ $name == @(Expired|PageExpired|BadNumber) ]] || explained "$name"
done

slip 4 'read fault' 'is a directory' ./kds replay < "$work"
slip 4 'read fault' 'is closed' ./kds replay <&-
printf '#!/bin/sh\necho out of memory >&2\nexit 6\n' > "$work/six"
chmod +x "$work/six"
KDS="$work/six" slip 6 'out of memory' 'memory ran out' ./kds replay
printf 'POST / HTTP/1.1\r\n' > "$work/half"
slip 7 'input ended inside a message' "the last request isn't whole" ./kds answer < "$work/half"
head -c 16777217 /dev/zero | tr '\0' x > "$work/long"
slip 9 'input too long' 'line 1 has more than 16,777,216 bytes' ./kds replay < "$work/long"
slip 9 'input too long' 'or the input more than 1,073,741,824' ./kds replay < <(cat "$work/long")
rm -f "$work/long"
printf 'POST / HTTP/1.1\r\n\r\n' > "$work/refused"
slip 10 'message refused' '411 is a request without Content-Length' ./kds answer < "$work/refused"
if [ -e /dev/full ]; then
    timeout 60 ./kds replay < examples/first.txt > /dev/full 2> "$work/err"
    [ $? -eq 5 ] && [ "$(head -n 1 "$work/err")" = 'write fault' ] && grep -q 'disk is full' "$work/err"
    tell $? 'a full disk' "$(cat "$work/err")"
fi
# The scripts by another way than their place: a symlink, a relative one with CDPATH, sh, more words
# after help, and KDS in this folder.
ln -s "$PWD/kds" "$PWD/dev" "$work"
answers "kds $(cat VERSION)" "$work/kds" --version
answers './dev build' "$work/dev" --help
answers "kds $(cat VERSION)" env -C .. CDPATH="$(dirname "$PWD")" "${PWD##*/}/kds" --version
answers './dev build' env -C .. CDPATH="$(dirname "$PWD")" "${PWD##*/}/dev" --help
answers "kds $(cat VERSION)" sh ./kds --version
for words in '--help replay' '-h x' 'help nosuch'; do
    # shellcheck disable=SC2086
    answers './kds serve PORT MEMBERS' ./kds $words
done
cp "$KDS" "$work/quick"
answers 'runs quick, which KDS names' env -C "$work" KDS=quick "$PWD/kds" --version

# What the caller's shell exports, and KDS that names the script itself.
answers "kds $(cat VERSION)" env POSIXLY_CORRECT=1 ./kds --version
answers './dev build' env POSIXLY_CORRECT=1 ./dev --help
printf '1000 step\r\n' > "$work/schedule"
for name in errexit nounset posix pipefail; do
    answers "kds $(cat VERSION)" env SHELLOPTS="$name" ./kds --version
    slip 3 'line 1: not a schedule line' 'CR LF' env SHELLOPTS="$name" ./kds replay < "$work/schedule"
    answers './dev build' env SHELLOPTS="$name" ./dev --help
done
for name in cd cat rm mktemp sed printf kill source stop; do
    answers "kds $(cat VERSION)" env "BASH_FUNC_$name%%=() { echo odd; return 1; }" ./kds --version
    slip 3 'line 1: not a schedule line' 'CR LF' \
        env "BASH_FUNC_$name%%=() { echo odd; return 1; }" ./kds replay < "$work/schedule"
    answers './dev build' env "BASH_FUNC_$name%%=() { echo odd; return 1; }" ./dev --help
done
for words in '--version' 'replay' 'serve 4594 2'; do
    # shellcheck disable=SC2086
    timeout 20 env KDS=./kds ./kds $words < /dev/null > "$work/out" 2> "$work/err"
    given=$?
    [ "$words" = --version ] \
        || { [ "$given" -eq 2 ] && [ "$(cat "$work/err")" = 'kds: KDS names this script, and not a program: ./kds' ]; }
    tell $? "KDS=./kds ./kds $words" "status $given, $(head -n 2 "$work/err")"
done

# Where no temporary file can be made or written the program's own line and status stay, and no hint follows.
bare() { # STATUS OUTPUT ERRORS FILE WORD..
    local status=$1 output=$2 errors=$3 file=$4
    shift 4
    timeout 60 "$@" < "$file" > "$work/out" 2> "$work/err"
    local given=$?
    [ "$given" -eq "$status" ] && [ "$(tail -n 1 "$work/out")" = "$output" ] && [ "$(cat "$work/err")" = "$errors" ]
    tell $? "$*" "status $given, $(tail -n 1 "$work/out"), $(cat "$work/err")"
}
printf '1000 step\r\n' > "$work/schedule"
# shellcheck disable=SC2016 # the inner shell's words
printf '%s%s\n' 'mount -t tmpfs -o size=16k none "$1" && ' \
    '{ head -c 100000 /dev/zero > "$1/much" 2> /dev/null; TMPDIR=$1 exec "${@:2}"; }' > "$work/tmpfs"
mkdir "$work/full"
rooms=("env TMPDIR=$work/nosuch")
if unshare -rm mount -t tmpfs none "$work/full" 2> /dev/null; then
    rooms+=("unshare -rm bash $work/tmpfs $work/full")
else
    echo 'skipped: this user can mount no disk to fill'
fi
bare 0 'ok 1 1/0 w2 3 1 1' '' examples/leases.txt env -C "$work" KDS=quick "$PWD/kds" replay
for room in "${rooms[@]}"; do
    # shellcheck disable=SC2086 # words
    bare 0 'sound 37' '' examples/workers.journal $room ./kds audit
    # shellcheck disable=SC2086
    bare 1 'entry 33 Lost' '' examples/stale-mark.journal $room ./kds audit
    # shellcheck disable=SC2086
    bare 3 '' 'line 1: not a schedule line' "$work/schedule" $room ./kds replay
done

# What a server meets before it listens. It replaces the script, so the hint comes first.
before() { # STATUS OWN-LINE HINT WORD..
    local status=$1 own=$2 part=$3
    shift 3
    timeout 60 "$@" 2> "$work/err"
    local given=$?
    [ "$given" -eq "$status" ] && [ "$(tail -n 1 "$work/err")" = "$own" ] \
        && [[ "$(head -n 1 "$work/err")" == "kds: "*"$part"* ]]
    tell $? "$*" "status $given, $(cat "$work/err")"
}
before 5 'write fault' 'closed or full' ./kds serve 4593 2 >&-
[ ! -e /dev/full ] || before 5 'write fault' 'closed or full' ./kds serve 4593 2 > /dev/full
# shellcheck disable=SC2086 # words
[ "${#rooms[@]}" -eq 1 ] \
    || before 5 'write fault' 'closed or full' ${rooms[1]} bash -c "./kds serve 4593 2 > $work/full/out"
plain=()
[ "$(id -u)" -ne 0 ] || plain=(setpriv --reuid=65534 --regid=65534 --clear-groups)
read -r first 2> /dev/null < /proc/sys/net/ipv4/ip_unprivileged_port_start || first=1024
if [ "$first" -gt 1 ] && "${plain[@]}" test -x ./kds -a -x "$KDS" 2> /dev/null; then
    before 8 'door fault' 'port 1 needs rights' "${plain[@]}" ./kds serve 1 2 > /dev/null
else
    echo 'skipped: no other user can run the program here'
fi

mkfifo "$work/said"
./kds serve 4591 2 > "$work/said" &
read -r -t 60 listening < "$work/said"
[ "${listening:-}" = listening ] && slip 8 'door fault' 'port 4591 is in use' ./kds serve 4591 2
kill %1 && wait %1 2> /dev/null

# Words that `./dev` and the scripts that it starts don't take: usage, and nothing starts.
slip 2 'usage: ./dev check CRATE' 'lists them' ./dev check
slip 2 'usage: ./dev check CRATE' 'lists them' ./dev check nosuch
slip 2 'usage: ./dev edits CRATE' 'lists them' ./dev edits
slip 2 'usage: ./dev try WORD..' 'the words are those of ./kds' ./dev try
slip 2 'usage: ./dev faults WORD..' 'the words are those of ./kds' ./dev faults
for words in './dev nosuch' './dev names --wirte' './dev crates --x' './dev calling --x' \
    'checks/together.py nosuch' 'tests/program.sh --slow'; do
    # shellcheck disable=SC2086
    $words > "$work/out" 2>&1
    tell $(($? != 2)) "$words" "$(head -n 2 "$work/out")"
done
for words in 'nosuch' 'build nosuch' 'test nosuch' 'test --quick nosuch' 'clients nosuch' \
    'check kds_rate nosuch' 'gate nosuch' 'gate kds_rate nosuch' 'bench' 'bench nosuch'; do
    # shellcheck disable=SC2086
    timeout 20 ./dev $words > "$work/out" 2> "$work/err"
    [ $? -eq 2 ] && [ ! -s "$work/out" ] && [ "$(wc -l < "$work/err")" -eq 1 ] && grep -q '^dev: ' "$work/err"
    tell $? "./dev $words" "$(head -n 2 "$work/out" "$work/err")"
done
# Without the kit: one line, and nothing starts.
without=$(IFS=:; for folder in $PATH; do [ -e "$folder/rt" ] || printf '%s:' "$folder"; done)
no_rt='the command rt of the Rattle kit is not there (README.md, "What it stands on")'
for words in 'check kds_rate' 'edits kds_rate' 'faults replay' test 'test --quick' calling \
    'calling --prove' falsify 'falsify 2'; do
    # shellcheck disable=SC2086
    PATH=${without%:} timeout 20 ./dev $words > "$work/out" 2> "$work/err"
    [ $? -eq 2 ] && [ ! -s "$work/out" ] && [ "$(cat "$work/err")" = "dev: $no_rt" ]
    tell $? "./dev $words without rt" "$(head -n 2 "$work/out" "$work/err")"
done
PATH=${without%:} answers '' timeout 20 ./dev calling --help
for words in build test clients check gate; do
    answers './dev build' timeout 20 ./dev $words --help
done
for script in .ci/* bench/* checks/* tests/* tools/*; do
    if [ -x "$script" ] && [ -f "$script" ]; then
        answers '' "$script" --help
        [ -s "$work/out" ]
        tell $? "$script --help" 'nothing on the output'
    fi
done

# Builds, in a copy of the scripts, by a kit that proves and compiles nothing: its programs are
# bash, so that words can be commands.
unset KDS
fakes=$work/fakes
fake=$fakes/repository
export FAKES=$fakes
mkdir -p "$fakes/tmp" "$fakes/kits/kit/"{bin,c,toolchain/bin,toolchain/lib} "$fake"
cp -r dev kds build hints HANDLES VERSION crates.txt "$fake"
while IFS=: read -r name _; do
    mkdir -p "$fake/crates/$name/"{src,must-fail}
done < <(grep -v '^#' crates.txt)
echo one > "$fake/crates/kds_cli/src/main.rt"
mkdir -p "$fake/crates/kds_cli/"{specs,proofs/main/main}
for name in kds_cli/{specs/One.antt,proofs/main/main/Answers.antt,args,stdin,stdout} kds_base/src/lib.rt; do
    echo one > "$fake/crates/$name"
done
cat > "$fakes/program" << 'END'
#!/usr/bin/env bash
case $1 in
    replay) exit 0 ;;
    serve) echo "$GLIBC_TUNABLES"; exit 0 ;;
esac
exec bash "$@"
END
# what each of the kit's commands does at a step that is to hang, and else
cat > "$fakes/step" << 'END'
does() { [ "$(cat "$FAKES/does")" = "$1" ]; }
hang() {
    sleep 600 &
    printf '%s ' "$$" "$!" >> "$FAKES/processes" # of several that are at this step at once, on one line
    wait
}
full() { echo "$1: error writing 'module.o': No space left on device" >&2; exit 1; }
END
cat > "$fakes/kits/kit/bin/rt" << 'END'
#!/usr/bin/env bash
source "$FAKES/step"
kit=$(dirname "$(dirname "$(realpath "$0")")")
case $1 in
    version) cat "$FAKES/version" ;;
    doc) echo "$kit/START-HERE.md" ;;
    try)
        echo try >> "$FAKES/calls"
        ! does fill || head -c 100000000 /dev/zero > "$FILL" 2> /dev/null
        ! does hang-try || hang
        ! does refuse || { printf 'error: no such name\nrun=none proved=no\n' >&2; exit 1; }
        ! does change || { echo other > src/main.rt; echo build > "$FAKES/does"; }
        does slow && sleep 1
        room=$(mktemp -d) && cd "$room" || exit 2
        trap 'rm -rf "$room"' EXIT
        cp "$FAKES/program" module.bc
        words=(--target=x --sysroot="$kit/toolchain" -march=x86-64 -c -x ir module.bc -o module.o)
        "$kit/toolchain/bin/clang" "${words[@]}" -O0 || exit 2
        does differ || "$kit/toolchain/bin/clang" "${words[@]}" -O0 -fsanitize=address \
            || { echo 'run=none proved=no' >&2; exit 2; }
        echo 'run=ended status=0 proved=no' >&2 ;;
    ci)
        echo ci >> "$FAKES/calls"
        if [ "$PWD" = "$FAKES/fresh" ]; then # the gate itself, in its place
            ! does hang-ci || hang
            ! does refuse || exit 1
            [ $# -eq 1 ] || exit 0
            rm -rf crates/*/out && mkdir crates/kds_cli/out && cp "$FAKES/program" crates/kds_cli/out/kds_cli
            exit
        fi
        ! does fill || head -c 100000000 /dev/zero > "$FILL" 2> /dev/null
        [ -d .git ] && [ -d crates/kds_base/src ] && [ ! -e crates/kds_base/must-fail ] \
            && [ ! -e crates/test_runs ] && ! grep -q test_ crates.txt || exit 3
        ! does hang-ci || { echo 'rt: kds_base proved'; hang; }
        ! does full-ci || full rt
        if does refuse; then
            printf '== kds_base\nrt: kds_base proved\n'
            printf '== kds_defs\nerror: not so\nrt: kds_defs NOT PROVED\n0 passed, 1 failed\n'
            exit 1
        fi
        ! does change || sed -i 's/^/more /' "$FAKES/repository/crates/kds_cli/src/main.rt"
        ! does slow || sleep 2
        printf 'rt: kds_base is kept: an earlier run\n== kds_defs\nmuch\nrt: kds_'
        sleep 1
        printf 'defs proved\n55 passed, 0 failed\n'
        mkdir crates/kds_cli/out && cp "$FAKES/program" crates/kds_cli/out/kds_cli ;;
esac
END
cat > "$fakes/kits/kit/toolchain/bin/clang" << 'END'
#!/usr/bin/env bash
source "$FAKES/step"
case " $* " in
    *' -O0 '*) exit 0 ;;
    *' -S '*) # the text of the module: the lines of the program stand before its function, where each part has them too
        sed 's/^/source_filename = /' module.bc
        printf 'define i32 @main() {\n}\n'
        ! does strange || echo 'module asm "strange"'
        exit ;;
    *' --sysroot='*'/kits/kit/toolchain -march=x86-64-v2 '*) ;;
    *) echo "error: other words: $*" >&2; exit 1 ;;
esac
! does hang-clang || hang
! does full-clang || full clang
! does odd || { echo 'clang: error: an odd module' >&2; exit 1; }
while [ "$1" != ir ]; do shift; done
sed -n 's/^source_filename = //p' "$2" > "$4"
END
cat > "$fakes/kits/kit/bin/python3" << 'END'
#!/usr/bin/env bash
source "$FAKES/step"
! does no-python || { echo 'python3: command not found' >&2; exit 127; }
PATH=${PATH#*:} exec python3 "$@"
END
cat > "$fakes/kits/kit/bin/rattle-link" << 'END'
#!/usr/bin/env bash
source "$FAKES/step"
! does hang-link || hang
! does loose || { echo 'rattle-link: cannot link that' >&2; exit 1; }
while [ "$1" != -o ]; do shift; done
cp "$3" "$2" && chmod +x "$2"
END
touch "$fakes/kits/kit/bin/"{rattle,rtlib.py} "$fakes/kits/kit/c/"{libos_c.a,liblibc_c.a}
chmod +x "$fakes/program" "$fakes/kits/kit/bin/"* "$fakes/kits/kit/toolchain/bin/clang"
echo kit-1 > "$fakes/version"

# What a build has left: no room, no process, no file that is half of one.
nothing_left() {
    local processes=()
    [ ! -s "$fakes/processes" ] || read -ra processes < "$fakes/processes"
    [ "${#processes[@]}" -eq 0 ] || ! kill -0 "${processes[@]}" 2> /dev/null || return
    [ -z "$(ls "$fakes/tmp")" ] && [ -z "$(find "$fake" -name new -o -name '*.new' -o -name probe)" ]
}

# A command of the copy, in its folder, by the fake kit: its status, its output, how often `rt`
# built or proved, and what it said.
path=$fakes/kits/kit/bin:$PATH
begin() { # DOES
    echo "$1" > "$fakes/does"
    : > "$fakes/calls"
    rm -f "$fakes/processes"
}
run() { (cd "$fake" && echo input | TMPDIR=$fakes/tmp PATH=$path exec "$@"); }
fake() { # STATUS OUTPUT CALLS ERRORS DOES WORD..
    local status=$1 output=$2 calls=$3 errors=$4
    begin "$5"
    shift 5
    run "$@" > "$work/out" 2> "$work/err"
    local given=$?
    # shellcheck disable=SC2053 # the errors are a pattern
    [ "$given" -eq "$status" ] && [ "$(cat "$work/out")" = "$output" ] && [ "$(wc -l < "$fakes/calls")" -eq "$calls" ] \
        && [[ $(cat "$work/err"; echo .) == $errors. ]] && nothing_left
    tell $? "a fake $*, $(cat "$fakes/does")" \
        "status $given, $(cat "$work/out" "$work/err"), $(wc -l < "$fakes/calls") calls, left: $(ls "$fakes/tmp")"
}

# One that is ended by a signal at a step that hangs.
stopped() { # SIGNAL DOES WORD..
    local signal=$1 times
    begin "$2"
    shift 2
    (cd "$fake" && TMPDIR=$fakes/tmp PATH=$path exec env --default-signal=INT "$@") > "$work/out" 2> "$work/err" &
    for times in {1..300}; do
        [ ! -s "$fakes/processes" ] || break
        sleep 0.1
    done
    kill "-$signal" $!
    wait $!
    local given=$?
    [ "$given" -eq $((128 + $(kill -l "$signal"))) ] && [ "$(tail -n 1 "$work/err")" = 'kds: interrupted' ] \
        && [ "$times" -lt 300 ] && nothing_left
    tell $? "a fake $*, ended by $signal" \
        "status $given, $(cat "$work/err"), left: $(ls "$fakes/tmp"), $(cat "$fakes/processes")"
}

# Two at once: one builds, and the other waits for that.
twice() { # WORD..
    begin slow
    run "$@" > "$work/out" 2> "$work/err" &
    run "$@" > "$work/out2" 2> "$work/err2"
    local given=$? other waits='is building it: waiting for that to end'
    wait $!
    other=$?
    [ "$given $other" = '0 0' ] && cmp -s "$work/out" "$work/out2" \
        && [ "$(wc -l < "$fakes/calls")" -eq 1 ] && nothing_left \
        && [ "$(cat "$work/err" "$work/err2" | grep -c "^kds: another run in this folder $waits\$")" -eq 1 ]
    tell $? "a fake $*, twice at once" "status $given, $other, $(cat "$work/err" "$work/err2")"
}

# One that is killed at a step that hangs: the next one doesn't wait for what it left, which is ended here.
killed() { # DOES WORD..
    local times left
    begin "$1"
    shift
    (cd "$fake" && TMPDIR=$fakes/tmp PATH=$path exec "$@") > "$work/out" 2> "$work/err" &
    for times in {1..300}; do
        [ ! -s "$fakes/processes" ] || break
        sleep 0.1
    done
    kill -KILL $!
    wait $! 2> /dev/null
    read -ra left < "$fakes/processes"
    begin build
    (cd "$fake" && TMPDIR=$fakes/tmp PATH=$path timeout 60 "$@") > "$work/out" 2> "$work/err"
    local given=$?
    [ "$given" -eq 0 ] && kill -0 "${left[@]}" && [ "$(wc -l < "$fakes/calls")" -eq 1 ] \
        && ! grep -q 'waiting for that' "$work/err"
    tell $? "a fake $*, after one that was killed" "status $given, $(cat "$work/err"), left: ${left[*]}"
    kill "${left[@]}"
    rm -rf "${fakes:?}/tmp/"*
}

# One that is ended while it waits for another.
waiting() { # LOCK WORD..
    local times held
    exec {held}> "$fake/out/$1.lock"
    flock "$held"
    local lock=$fake/out/$1.lock
    shift
    begin build
    : > "$work/err"
    (cd "$fake" && TMPDIR=$fakes/tmp PATH=$path exec "$@") > "$work/out" 2> "$work/err" {held}>&- &
    for times in {1..300}; do
        ! grep -q 'waiting for that to end' "$work/err" || break
        sleep 0.1
    done
    kill -TERM $!
    wait $!
    local given=$?
    exec {held}>&-
    [ "$given" -eq 143 ] && [ "$(tail -n 1 "$work/err")" = 'kds: interrupted' ] \
        && [ "$times" -lt 300 ] && nothing_left && flock -n "$lock" true
    tell $? "a fake $*, ended while it waits" "status $given, $(cat "$work/err")"
}

# One where a folder lies on a disk that is full, or that is filled by what `rt` does; and how often `rt` was called.
full() { # CALLS DOES FOLDER ERRORS WORD..
    local calls=$1 does=$2 at=$3 errors=$4
    shift 4
    mkdir -p "$at"
    begin "$does"
    # shellcheck disable=SC2016 # the inner shell's words
    unshare -rm bash -c '
        mount -t tmpfs -o size=16m none "$0" || exit
        [ "$5" != build ] || head -c 100000000 /dev/zero > "$0/much" 2> /dev/null
        cd "$1" && FILL=$0/much TMPDIR=$2 PATH=$3 exec "${@:6}"' \
        "$at" "$fake" "$fakes/tmp" "$path" '' "$does" "$@" > "$work/out" 2> "$work/err"
    local given=$?
    # shellcheck disable=SC2053
    [ "$given" -eq 2 ] && [[ $(grep '^kds: ' "$work/err") == *$errors ]] \
        && [ "$(wc -l < "$fakes/calls")" -eq "$calls" ] && nothing_left
    tell $? "a fake $*, a full disk" "status $given, $(cat "$work/err")"
}


# shellcheck disable=SC2016 # a mark of a command
minutes=$(sed -n "s/^minutes='\(.*\)'$/\1/p" build/programs)
first='kds: NOT PROVED yet: checks stand where proofs would be. `./dev build` proves it, in '"$minutes"$'\n'
then=${first}$'kds: building it, once for these sources: one to ten minutes\n'
source=$fake/crates/kds_cli/src/main.rt
version="kds $(cat VERSION)"$'\nruns'

# The quick program: built once for sources, kit and words; not at all where it can't be, with a line that says why.
whole="kds: the last request isn't whole: the input ends inside its head, or before the bytes that Content-Length names"
fake 7 input 1 "$then$whole"$'\n' build ./kds -c 'cat; exit 7'
fake 20 input 0 "$first" build ./dev try -c 'cat; exit 20'
fake 20 input 0 "$first" build ./kds -c 'cat; exit 20'
quick="$version the quick program"
unproved='not proved yet, ./dev build proves it'
fake 0 "$quick, $(cd "$fake" && echo out/quick/kds-*): $unproved" 0 '' build ./kds --version
echo two > "$source"
fake 0 "$quick, once that is built: $unproved" 0 '' build ./kds --version
refused=$'error: no such name\nrun=none proved=no\nkds: not built: the sources are refused, the lines above say why\n'
fake 1 '' 1 "$then$refused" refuse ./kds -c 'echo ran'
fake 2 '' 1 "$then"$'kds: not built: the kit\'s compiler failed: clang: error: an odd module\n' odd ./kds -c 'echo ran'
fake 2 '' 1 "$then"$'kds: not built: the kit\'s linker failed: rattle-link: cannot link that\n' \
    loose ./kds -c 'echo ran'
fake 2 '' 1 "$then"$'kds: not built: the kit\'s compiler failed: the disk is full\n' full-clang ./kds -c 'echo ran'
inside=$'kds: this kit\'s inside isn\'t as the quick program needs it'
fake 2 '' 1 "$then$inside"$'; `./dev build` proves the program, and builds it\n' differ ./dev try -c 'echo ran'
for step in try clang link; do
    stopped TERM "hang-$step" ./kds -c 'echo ran'
done
# The module is compiled in parts, and as one where it can't be split: on one processor nothing tries to.
one=${then}'kds: compiled as one: '
fake 0 ran 1 "$one"$'a line of the module is of no known form: module asm "strange"\n' strange ./kds -c 'echo ran'
tell "$(($(cat "$fake/out/quick/parts") != 1))" 'the parts of a strange module' "$(cat "$fake/out/quick/parts")"
echo two of one >> "$source"
fake 0 ran 1 "$one"$'python3: command not found\n' no-python ./kds -c 'echo ran'
echo two of one >> "$source"
fake 0 ran 1 "$then" strange env OMP_NUM_THREADS=1 ./kds -c 'echo ran'
echo two of parts >> "$source"
fake 0 ran 1 "$then" build env OMP_NUM_THREADS=3 ./kds -c 'echo ran'
tell "$(($(cat "$fake/out/quick/parts") != 3))" 'the parts of a module' "$(cat "$fake/out/quick/parts")"
echo two once more > "$source"
stopped INT hang-try ./dev try -c 'echo ran'
killed hang-try ./kds -c 'echo ran'
echo two and more > "$source"
fake 0 ran 1 "$then" build ./kds -c 'echo ran'
echo three > "$source"
fake 0 ran 2 "$then"$'kds: a source changed meanwhile\n'"${then#"$first"}" change ./kds -c 'echo ran'
fake 0 ran 0 "$first" build ./kds -c 'echo ran'
# What is kept runs without the kit, if no source changed.
without=$(IFS=:; for folder in $PATH; do [ -e "$folder/rt" ] || printf '%s:' "$folder"; done)
path=${without%:} fake 0 ran 0 "$first" build ./kds -c 'echo ran'
path=${without%:} fake 0 "$quick, $(cd "$fake" && echo out/quick/kds-*): $unproved" 0 '' build ./kds --version
echo three and more > "$source"
path=${without%:} fake 2 '' 0 "kds: $no_rt"$'\n' build ./kds -c 'echo ran'
echo three > "$source"
# Ctrl-C in a loop ends the program that runs, and the loop.
begin build
# shellcheck disable=SC2016 # the inner shell's words
loop='echo $$ > "$0"; for _ in 1 2; do ./kds -c "echo begun; sleep 20"; echo "went on"; done'
(cd "$fake" && PATH=$path exec env --default-signal=INT setsid bash -c "$loop" "$work/loop") \
    > "$work/out" 2> "$work/err" &
for _ in {1..100}; do
    ! grep -q begun "$work/out" || break
    sleep 0.1
done
kill -INT -- "-$(cat "$work/loop")"
wait $!
given=$?
[ "$given" -eq 130 ] && [ "$(cat "$work/out")" = begun ]
tell $? 'a loop that is ended by Ctrl-C' "status $given, $(cat "$work/out" "$work/err")"
echo kit-2 > "$fakes/version"
twice ./kds -c 'echo ran'
fake 2 '' 0 $'kds: KDS names no program: /nosuch\n' build env KDS=/nosuch ./kds replay
fake 0 ran 0 '' build env KDS="$fakes/program" ./kds -c 'echo ran'
fake 0 "$version $fakes/program, which KDS names" 0 '' build env KDS="$fakes/program" ./kds --version
fake 0 "$fakes/program" 0 '' build env KDS=../program build/checked

setting=$(sed -n 's/^tunables=//p' build/programs)
fake 0 "$setting" 0 '' build env -u GLIBC_TUNABLES KDS="$fakes/program" ./kds serve 4592 2
# shellcheck disable=SC2016 # the program's words
fake 0 "$setting" 0 '' build env -u GLIBC_TUNABLES KDS="$fakes/program" ./kds -c 'echo "$GLIBC_TUNABLES"'
fake 0 glibc.malloc.tcache_count=3 0 '' \
    build env GLIBC_TUNABLES=glibc.malloc.tcache_count=3 KDS="$fakes/program" ./kds serve 4592 2

# The proved one.
begins=$'kds: proving 54 crates, and building the program: *\n'
refused=$'== kds_defs\nerror: not so\nrt: kds_defs NOT PROVED\n0 passed, 1 failed\n'
refused+=$'kds: a crate is not proved, or the program was not built; the whole log is *build.log\n'
fake 1 '' 1 "$begins"'*'"$refused" refuse ./dev build
fake 2 '' 1 "$begins"$'*kds: rt judged nothing: the disk is full; the whole log is *build.log\n' full-ci ./dev build
stopped TERM hang-ci ./dev build
stopped INT hang-ci ./dev build
fake 1 '' 1 "$begins"$'*kds: a source changed meanwhile*\n' change ./dev build
proves=$begins$'*kds: kds_base (1 of 54, kept), after 11 min\nkds: kds_defs (2 of 54), after 11 min\n'
proves+=$'kds: proved: crates/kds_cli/out/kds_cli\n'
fake 0 '' 1 "$proves" build env SECONDS=660 ./dev build
fake 0 ran 0 '' build ./kds -c 'echo ran'
fake 0 "$version the proved program, crates/kds_cli/out/kds_cli" 0 '' build ./kds --version
fake 0 '' 0 $'kds: proved: crates/kds_cli/out/kds_cli\n' build ./dev build
fake 0 "$fake/crates/kds_cli/out/kds_cli" 0 '' build build/checked

# It is known by the sum of its sources, whatever their times are.
knows() { # NAME yes|no
    begin build
    run ./kds --version > "$work/out" 2> "$work/err"
    [ "$(grep -c "^runs the proved program, crates/kds_cli/out/kds_cli$" "$work/out")" \
        -eq "$([ "$2" = yes ] && echo 1 || echo 0)" ] \
        && [ ! -s "$work/err" ] && nothing_left
    tell $? "whether $1 is proved: $2" "$(cat "$work/out" "$work/err")"
}
# One byte of a file is another, and its time is as before; then it is the same again.
changed() { # FILE
    cp -p "$fake/$1" "$work/was"
    { head -c -1 "$work/was"; echo; } > "$fake/$1"
    ! cmp -s "$work/was" "$fake/$1" || printf x > "$fake/$1"
    touch -r "$work/was" "$fake/$1"
    knows "a copy with another $1" no
    cat "$work/was" > "$fake/$1"
    knows "a copy with the same $1 again" yes
}
whole=$fake fake=$fakes/fresh
mkdir "$fake" && cp -r "$whole/." "$fake" && rm -r "$fake/out"
knows 'a fresh checkout with the program of another' yes
fake 0 '' 0 $'kds: proved: crates/kds_cli/out/kds_cli\n' build ./dev build
for time in 1980-01-01 2099-01-01; do
    find "$fake" -exec touch -d "$time" {} +
    knows "a copy with all its files of $time" yes
    fake 0 '' 0 $'kds: proved: crates/kds_cli/out/kds_cli\n' build ./dev build
done
knows 'a copy' yes
sleep 3 # times that are two seconds old are kept
knows 'a copy' yes
tell "$(here=$fake; source build/programs; same_times; echo $?)" 'the times that are kept' \
    'they are not those of the copy'
for name in HANDLES crates/kds_cli/{src/main.rt,specs/One.antt,proofs/main/main/Answers.antt} \
    crates/kds_cli/{args,stdin,stdout,out/kds_cli} crates/kds_base/src/lib.rt; do
    changed "$name"
done
sed -i 's/^kds_base:/& itoa/' "$fake/crates.txt"
knows 'a copy with another crates.txt' no
cp "$whole/crates.txt" "$fake"
for name in src/new.rt specs/new.antt proofs/main/new.antt; do
    touch "$fake/crates/kds_cli/$name"
    knows "a copy with a new $name" no
    rm "$fake/crates/kds_cli/$name"
done
mv "$fake/crates/kds_cli/src/"{main,other}.rt
knows 'a copy whose source has another name' no
mv "$fake/crates/kds_cli/src/"{other,main}.rt
knows 'a copy again' yes
rm "$fake/crates/kds_cli/out/kds_cli.sum"
knows 'a program without its sum' no
# The gate makes the program in its place. Of some crates it makes none.
fake 0 '' 1 '' build ./dev gate kds_base
knows 'a program without its sum, behind a gate of one crate' no
fake 1 '' 1 '' refuse ./dev gate
knows 'a program without its sum, behind a gate that fails' no
fake 0 '' 1 '' build ./dev gate
knows 'what a gate made' yes
begin hang-ci
(cd "$fake" && PATH=$path exec ./dev gate) > "$work/out" 2> "$work/err" &
for _ in {1..300}; do
    [ ! -s "$fakes/processes" ] || break
    sleep 0.1
done
kill -TERM $!
wait $!
[ $? -eq 143 ] && { read -ra processes < "$fakes/processes" || true; } && ! kill -0 "${processes[0]}" 2> /dev/null
tell $? 'a gate that is ended' "$(cat "$work/out" "$work/err")"
kill "${processes[1]}" 2> /dev/null
fake=$whole
echo four > "$source"
twice ./dev build
echo five > "$source"
fake 0 ran 2 "$then$inside"$': it is proved now, and built\n'"$begins"'*' differ ./kds -c 'echo ran'

echo again > "$source"
waiting quick ./kds -c 'echo ran'
waiting proof ./dev build

# A kit that isn't there, one that is broken, one beside which nothing can be kept; a folder that can't be written; a
# full disk.
echo six > "$source"
for words in './kds replay' './dev try replay' './dev build'; do
    # shellcheck disable=SC2086
    path=${without%:} fake 2 '' 0 "kds: $no_rt"$'\n' build $words
done
path=$fakes/kits/kit/bin:$PATH
mv "$fakes/version" "$fakes/version.not"
fake 2 '' 0 $'kds: rt version fails: the Rattle kit is not whole\n' build ./kds replay
mv "$fakes/version.not" "$fakes/version"
mkdir "$fakes/kits/rattle-kept" && chmod a-w "$fakes/kits/rattle-kept"
if [ "$(id -u)" -ne 0 ] || chown 65534 "$fakes/kits/rattle-kept" 2> /dev/null; then
    fake 1 '' 1 "$begins"$'*kds: proofs can\'t be kept beside the kit*begins anew\n*'"$refused" refuse ./dev build
else
    echo 'skipped: this user can write everywhere'
fi
rm -rf "$fake/out" && touch "$fake/out"
fake 2 '' 0 "$first"'kds: *out can'\''t be written'$'\n' build ./kds replay
fake 2 '' 0 'kds: *out can'\''t be written'$'\n' build ./dev build
rm "$fake/out"
if unshare -rm mount -t tmpfs none "$fakes/tmp" 2> /dev/null; then
    full 0 build "$fakes/tmp" "not begun: the disk of $fakes/tmp/* is full" ./kds replay
    full 0 build "$fake/out" "not begun: the disk of $fake/out is full" ./kds replay
    full 0 build "$fakes/tmp" "not begun: the disk of $fakes/tmp/* is full" ./dev build
    full 1 fill "$fakes/tmp" 'not built: the disk is full' ./kds replay
    full 1 fill "$fake/out" 'not kept: the disk is full' ./kds replay
    full 1 build "$fake/crates/kds_cli/out" 'proved, and not put in its place: the disk is full' ./dev build
else
    echo 'skipped: this user can mount no disk to fill'
fi

# A quick test that is ended: its step ends, and so do the clients beside it.
mkdir -p "$work/test/"{.ci,tests} && cp .ci/quick.sh "$work/test/.ci"
printf '%s\n' .ci/hang tests/clients_hang > "$work/test/.ci/steps"
cat > "$work/test/.ci/hang" << 'END'
#!/usr/bin/env bash
sleep 600 | cat &
echo "$$ $!" >> "${0%/*}/../processes"
wait
END
chmod +x "$work/test/.ci/hang" && cp "$work/test/.ci/hang" "$work/test/tests/clients_hang"
for signal in TERM HUP; do
    rm -f "$work/test/processes"
    KDS=/bin/true "$work/test/.ci/quick.sh" > "$work/out" 2>&1 &
    for _ in {1..100}; do
        [ "$(wc -l 2> /dev/null < "$work/test/processes")" != 2 ] || break
        sleep 0.1
    done
    kill "-$signal" $!
    wait $!
    given=$?
    read -rd '' -a processes < "$work/test/processes"
    [ "$given" -eq $((128 + $(kill -l $signal))) ] && [ "${#processes[@]}" -eq 4 ] \
        && ! kill -0 "${processes[@]}" 2> /dev/null
    tell $? "a quick test that is ended by $signal" "status $given, $(cat "$work/out")"
done

# Words of the scripts that none of them has: one line on the error output, at once, and nothing starts.
odd() { # SCRIPT WORD..
    timeout 60 "$@" < /dev/null > "$work/out" 2> "$work/err"
    local given=$?
    [ "$given" -eq 2 ] && [ ! -s "$work/out" ] && [ "$(wc -l < "$work/err")" -eq 1 ]
    tell $? "$*" "status $given, $(head -n 3 "$work/out" "$work/err")"
}
for script in .ci/* bench/* checks/* tests/* tools/*; do
    if [ ! -x "$script" ] || [ ! -f "$script" ]; then continue; fi
    odd "$script" --no-such
    # words of these are names of files, or of functions
    case $script in tools/schedule | tools/dump | checks/shown.py) ;; *) odd "$script" nosuch ;; esac
done
while read -ra words; do
    odd "${words[@]}"
done << 'END'
.ci/run --help more
checks/crates.py --check --count
checks/names.py --write more
tests/program.sh --quick more
checks/reached.py contract more
checks/together.py kds_head nosuch
bench/audit 0
bench/audit -1
bench/audit 1000 2000
bench/ceiling --c
bench/ceiling --c nosuch
bench/ceiling puts nosuch
bench/fuzz --inputs -1
bench/fuzz --inputs 0
bench/fuzz --seed
bench/fuzz --seconds 1.5x
bench/mixes -1
bench/mixes 1 nosuch
bench/peers 0
bench/peers 1 2
bench/picture --check more
bench/profile --names nosuch
bench/refused 0
bench/refused 1 2
bench/refused_serve 1
bench/refused_serve --boto3 2 1
bench/replay puts nosuch
bench/replay --beside
bench/replay --beside nosuch
bench/serve 0
bench/serve --beside
bench/serve --beside nosuch
bench/serve -1
bench/serve 1 2
bench/soak 0
bench/soak 999999
bench/soak 10 x
tests/aggregates.py 10 nosuch
tools/record 4568 nosuch out/record
tools/record 4568 70000 out/record
tests/clients suite nosuch
tests/clients suite.Nosuch
tests/clients unfriendly.Places.test_nosuch
tests/viewer --page
tests/viewer --page nosuch.html
tests/viewer --pictures nosuch
END
for words in './dev test nosuch' './dev build nosuch' './dev clients nosuch' \
    './dev bench serve nosuch' './dev bench nosuch'; do
    # shellcheck disable=SC2086
    timeout 60 $words > "$work/out" 2>&1
    tell $(($? != 2)) "$words" "$(head -n 2 "$work/out")"
done

printf '%d passed, %d failed\n' "$passed" "$failed"
[ "$failed" -eq 0 ]
