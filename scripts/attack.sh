#!/bin/sh
# Tries the wrong bodies in attacks/ that the gate doesn't try. It works on a copy and writes nothing here.
#
#     scripts/attack.sh [CRATE..]      these crates, or all that have a folder in attacks/
#
# An edit attacks/CRATE/NAME.edit has the form of those in crates/CRATE/must-fail/, and the prover must refuse the
# crate with it. A line for each edit; the last line counts them. Status 0 where all were refused, 1 where one wasn't
# or couldn't be tried, 2 where a crate has no such edits. A crate is proved once for its edits; what was built of
# the crates below it (crates/*/out/rlib) is used where it is up to date, and else they are proved first.
set -u
top=$(CDPATH= cd -- "$(dirname -- "$0")/.." && pwd)
cd "$top" || exit 2
[ $# -gt 0 ] || set -- $(cd attacks && ls)
for crate in "$@"; do
    if ! [ -d "crates/$crate" ] || ! ls "attacks/$crate"/*.edit >/dev/null 2>&1; then
        echo "attack: $crate is no crate with edits attacks/$crate/*.edit" >&2
        exit 2
    fi
done
room=$(mktemp -d) || exit 2
trap 'rm -rf "$room"' EXIT
trap 'exit 130' INT TERM HUP

tar -cf - --exclude=./.git --exclude='./crates/*/out' --exclude='./crates/*/must-fail' . | tar -xf - -C "$room" || exit 2
# What the named crates are built over, by crates.txt, in which each crate is below its users.
below=$(tac crates.txt | sed 's/#.*//; s/ staticlib:/:/; s/:/ /' | awk -v named="$*" '
    BEGIN { for (n = split(named, it); n > 0; n--) used[it[n]] = 1 }
    $1 in used { print $1; for (at = 2; at <= NF; at++) used[$at] = 1 }')
for crate in $below; do
    [ -e "crates/$crate/out/rlib/stamp" ] || continue
    mkdir -p "$room/crates/$crate/out" && cp -R "crates/$crate/out/rlib" "$room/crates/$crate/out/" || exit 2
done

refused=0 passed=0 bad=0
for crate in "$@"; do
    cp -R "attacks/$crate" "$room/crates/$crate/must-fail" || exit 2
    (cd "$room" && rt must-fail "$crate") >"$room/said" 2>&1
    for edit in "attacks/$crate"/*.edit; do
        edit=$crate/${edit##*/}
        line=$(grep -F -m 1 "must-fail $edit: " "$room/said" | sed 's/^rt: must-fail //')
        case $line in
        "$edit: refused, "*) refused=$((refused + 1)) ;;
        "$edit: NOT REFUSED"*) passed=$((passed + 1)) ;;
        *) bad=$((bad + 1)) ;;
        esac
        echo "${line:-$edit: NOT TRIED}"
    done
    # what rt said besides, where it tried nothing
    grep -q "must-fail $crate/" "$room/said" || tail -n 20 "$room/said"
done
echo "$refused refused, $passed not refused, $bad could not be applied or tried"
[ $((passed + bad)) -eq 0 ]
