#!/bin/sh
# Runs the program against files and outputs that fail, and says what it answered. It is run outside the gate.
#
#     scripts/outside.sh [PROGRAM]      the program, or what `./tv` has built
#
# The script `tv` is tried with it too, from a folder where it finds the program built.
#
# Each line is a case, its exit status and what it reported; the last line is the number of wrong answers.
set -u
top=$(CDPATH= cd -- "$(dirname -- "$0")/.." && pwd)
program=${1:-$top/crates/tv_main/out/tv_main}
folder=$(mktemp -d)
trap 'rm -rf "$folder"' EXIT
chmod 755 "$folder"
cp "$top/examples/add/add.elf" "$top/examples/add/add.c" "$folder"
cp "$program" "$folder/program"
mkdir -p "$folder/top/crates/tv_main/out"
: >"$folder/top/crates.txt"
cp "$top/tv" "$folder/top"
cp "$program" "$folder/top/crates/tv_main/out/tv_main"
cd "$folder" || exit 2
wrong=0

# wanted status, wanted report, name of the case, words
try() {
    want=$1 text=$2 case=$3
    shift 3
    got=$("$@" 2>errors)
    status=$?
    if [ "$status" != "$want" ] || [ "$got" != "$text" ] || [ -s errors ]; then
        wrong=$((wrong + 1))
        echo "WRONG $case: status $status, wanted $want; report '$got'; errors '$(cat errors)'"
    else
        echo "right $case: status $status"
    fi
}

# The same, after which the certificate k is that of the example.
whole() {
    rm -f k
    try "$@"
    if ! cmp -s k example.cert; then
        wrong=$((wrong + 1))
        echo "WRONG $3: the certificate is not that of the example"
    fi
}

valid='valid f stack=0
total valid=1 unproved=0'
mkdir folder
cp add.elf secret.elf
chmod 000 secret.elf

try 0 "$valid" "the example" ./program prove add.elf add.c --cert k
cp k example.cert
try 4 "" "a missing executable" ./program prove missing add.c --cert k
try 4 "" "a missing source" ./program prove add.elf missing --cert k
try 4 "" "a folder in the executable's place" ./program prove folder add.c --cert k
try 4 "" "a folder in the source's place" ./program prove add.elf folder --cert k
try 4 "" "a certificate in a folder that is not there" ./program prove add.elf add.c --cert none/k
try 4 "" "a certificate in a folder's place" ./program prove add.elf add.c --cert folder
try 4 "" "a full output" sh -c './program prove add.elf add.c --cert k > /dev/full'
try 4 "" "a full store" ./program prove add.elf add.c --cert /dev/full
whole 0 "$valid" "a closed input" sh -c './program prove add.elf add.c --cert k <&-'
whole 4 "" "a closed output" sh -c './program prove add.elf add.c --cert k >&-'
whole 0 "$valid" "a closed error output" sh -c './program prove add.elf add.c --cert k 2>&-'
whole 4 "" "a closed input and output" sh -c './program prove add.elf add.c --cert k <&- >&-'
whole 4 "" "no open descriptor" sh -c './program prove add.elf add.c --cert k <&- >&- 2>&-'
whole 0 "$valid" "a closed input of the script" sh -c 'top/tv prove add.elf add.c --cert k <&-'
whole 4 "" "a closed output of the script" sh -c 'top/tv prove add.elf add.c --cert k >&-'
whole 0 "$valid" "a closed error output of the script" sh -c 'top/tv prove add.elf add.c --cert k 2>&-'
whole 4 "" "no open descriptor of the script" sh -c 'top/tv prove add.elf add.c --cert k <&- >&- 2>&-'
try 2 "refused words" "no words" ./program
try 2 "refused words" "words that are not text" sh -c './program prove "$(printf "\377")" add.c --cert k'
if [ "$(id -u)" = 0 ]; then
    try 4 "" "an unreadable executable" setpriv --reuid=65534 --clear-groups ./program prove secret.elf add.c --cert /dev/null
else
    try 4 "" "an unreadable executable" ./program prove secret.elf add.c --cert k
fi
echo "$wrong wrong"
[ "$wrong" = 0 ]
