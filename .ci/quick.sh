#!/usr/bin/env bash
# Every check that needs no proof, on the quick program: the tests in Rattle as `rt try` runs them, and what .ci/run has
# behind the gate (.ci/steps). A step that fails doesn't end it. The last lines say what was skipped, which steps
# failed, what wasn't done, and how many checks passed and failed.
#
#     .ci/quick.sh     takes no words; KDS= names another program
set -u
cd "$(dirname "$0")/.." || exit 1
case $* in
    '') ;;
    --help | -h) sed -n '/^#!/d; /^#/!q; s/^# \{0,1\}//p' .ci/quick.sh; exit ;;
    *) echo 'usage: .ci/quick.sh; --help says more' >&2; exit 2 ;;
esac

work=$(mktemp -d) || exit 1
# What runs, each in a process group of its own, which ends with this script: the present step, and the clients.
now=
behind=
ended() {
    local group
    for group in $now $behind; do
        kill -TERM -- "-$group" 2> /dev/null
        for _ in {1..50}; do
            kill -0 -- "-$group" 2> /dev/null || continue 2
            sleep 0.1
        done
        kill -KILL -- "-$group" 2> /dev/null
    done
    rm -rf "$work"
}
trap ended EXIT
trap 'exit 130' INT
trap 'exit 143' TERM
trap 'exit 129' HUP

# Runs a command, and gives its status.
attend() { # WORD..
    local status
    set -m
    "$@" < /dev/null &
    now=$!
    set +m
    wait "$now"
    status=$?
    now=
    return "$status"
}

# Each check takes the program from KDS. What this names already stays.
if [ -z "${KDS:-}" ]; then
    attend build/try --name > "$work/name" || exit
    KDS=$(cat "$work/name")
fi
export KDS

# The tests of a crate in Rattle. A crate that is a program has none, and is run instead: it must print what its file
# `stdout` has.
tests() { # CRATE
    cd "crates/$1" || return
    if [ ! -e stdout ]; then
        rt try --test --seconds 300
        return
    fi
    local words=() input=/dev/null
    [ ! -e args ] || mapfile -t words < args
    [ ! -e stdin ] || input=stdin
    rt try --seconds 300 -- "${words[@]}" < "$input" > "$work/given" && cmp "$work/given" stdout
}

# A first run compiles the program in parts, unless there is one processor (build/quick). One that build/parts.py
# refuses is compiled as one, which takes longer.
in_parts() {
    if ! [ "$KDS" -ef "out/quick/${KDS##*/}" ]; then
        echo "skipped: KDS names a program that isn't this folder's quick one"
        return
    fi
    echo "compiled in parts: $(cat out/quick/parts)"
    [ "$(nproc)" -eq 1 ] || [ "$(cat out/quick/parts)" -gt 1 ]
}

steps=(in_parts)
for place in crates/test_*; do
    steps+=("tests ${place##*/}")
done
mapfile -t -O "${#steps[@]}" steps < <(grep -v '^#' .ci/steps)
[ -r .ci/steps ] || exit 1

# The clients wait for most of their time. So they run beside the other steps from the beginning, one after another, and
# what each says is shown where it stands among the steps.
is_behind() { [[ $1 = tests/clients* || $1 = tests/viewer* ]]; }
run_behind() {
    local at status
    for at in "${!steps[@]}"; do
        is_behind "${steps[at]}" || continue
        (${steps[at]}) < /dev/null > "$work/$at.said" 2>&1
        status=$?
        echo "$status" > "$work/$at.status"
    done
}
set -m
run_behind &
behind=$!
set +m

# The step's status, once it has ended. What it says goes to the output.
ended_behind() { # AT
    while [ ! -s "$work/$1.status" ] && kill -0 "$behind" 2> /dev/null; do sleep 1; done
    cat "$work/$1.said"
    [ -s "$work/$1.status" ] && return "$(cat "$work/$1.status")"
}

# A step, a command and its words. What it says goes to the output and into a file.
run_step() { # AT
    if is_behind "${steps[$1]}"; then
        ended_behind "$1" | tee "$work/said"
    else
        (${steps[$1]}) 2>&1 | tee "$work/said"
    fi
    return "${PIPESTATUS[0]}"
}

passed=0
failed=0
told=()
for at in "${!steps[@]}"; do
    printf '== step %d of %d, %d left: %s\n' $((at + 1)) "${#steps[@]}" $((${#steps[@]} - at - 1)) "${steps[at]}"
    attend run_step "$at"
    status=$?
    # A step counts its checks in its last such line. One that has none, or that fails with none that failed, is one
    # check.
    good=0
    bad=0
    read -r good bad \
        < <(sed -n 's/^\(.* \)\{0,1\}\([0-9]*\) passed, \([0-9]*\) failed$/\2 \3/p' "$work/said" | tail -n 1)
    [ $((good + bad)) -gt 0 ] || [ "$status" -ne 0 ] || good=1
    [ "$status" -eq 0 ] || [ "${bad:-0}" -gt 0 ] || bad=1
    passed=$((passed + good))
    failed=$((failed + bad))
    mapfile -t -O "${#told[@]}" told < <(grep '^skipped: ' "$work/said")
    [ "$status" -eq 0 ] || told+=("FAILED ${steps[at]}: status $status")
done
[ "${#told[@]}" -eq 0 ] || printf '%s\n' "${told[@]}"
echo "not done: no proof, no wrong body, and no program but $KDS. .ci/run proves and checks the proved one"
echo "$passed passed, $failed failed"
[ "$failed" -eq 0 ]
