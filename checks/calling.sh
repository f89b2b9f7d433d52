#!/usr/bin/env bash
# Makes the crate of docs/calling.md in a copy of this repository, by the commands that the page gives, and runs its
# test.
#
#     checks/calling.sh [--prove]     without a proof, which takes some minutes; or proved, which takes more
set -u
cd "$(dirname "$0")/.." || exit 1
case $*,$# in
    ,0) last='rt try --test' ;;
    --prove,1) last='rt test' ;;
    --help,1 | -h,1) sed -n '/^#!/d; /^#/!q; s/^# \{0,1\}//p' checks/calling.sh; exit ;;
    *) echo 'usage: checks/calling.sh [--prove]; --help says more' >&2; exit 2 ;;
esac
room=$(mktemp -d) || exit 1
trap 'rm -rf "$room"' EXIT
chmod 711 "$room"
mkdir "$room/.git" "$room/docs" && cp HANDLES crates.txt "$room" \
    && cp -r docs/calling docs/calling.md "$room/docs" || exit 1
for path in crates/*/{src,specs,proofs}; do
    [ ! -d "$path" ] || { mkdir -p "$room/${path%/*}" && cp -r "$path" "$room/${path%/*}"; } || exit 1
done
cd "$room" || exit 1
sed -n '/^    mkdir /,/^    cd /p' docs/calling.md | sed "s/rt try --test/$last/" > steps
[ "$(wc -l < steps)" -eq 5 ] || { echo 'docs/calling.md: its first block has other lines' >&2; exit 1; }
bash -e steps
