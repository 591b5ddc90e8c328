#!/bin/sh
# Builds the C example over the static library and runs it on the example sheet and on damaged copies of it. Each line
# says what is expected; a run that says something else ends the script with an error.
set -eu
cd "$(dirname "$0")/../.."
out=target/c-example
mkdir -p "$out" target/staticlib
(cd crates/sheet_c && rt lib) > "$out/staticlib.log" 2>&1 || { tail -n 20 "$out/staticlib.log"; exit 1; }
cp crates/sheet_c/out/libsheet_c.a target/staticlib/libsheet.a
cc -std=c99 -Wall -Wextra -Werror -O2 -Iinclude examples/c/check_sheet.c target/staticlib/libsheet.a -o "$out/check_sheet"

good=crates/sheet_report/data/plan.bin
failures=0

# expect NAME TEXT: the example says TEXT of the file NAME.
expect() {
    said=$("$out/check_sheet" "$out/$1" || true)
    if [ "$said" = "$out/$1: $2" ]; then
        echo "$said"
    else
        echo "$said (expected: $2)"
        failures=$((failures + 1))
    fi
}

# damage NAME PLACE OCTAL: the example sheet with one byte changed.
damage() {
    cp "$good" "$out/$1"
    printf "\\$3" | dd of="$out/$1" bs=1 seek="$2" conv=notrunc 2> /dev/null
}

cp "$good" "$out/good.bin"
expect good.bin "no fault"
: > "$out/empty.bin"
expect empty.bin "refused with 1 at byte 0"
head -c 61 "$good" > "$out/cut.bin"
expect cut.bin "refused with 3 at byte 18"
damage format.bin 0 002
expect format.bin "refused with 2 at byte 0"
damage horizon.bin 31 000
expect horizon.bin "refused with 5 at byte 30"
damage loop.bin 52 002
expect loop.bin "refused with 7 at byte 51"
damage long.bin 35 377
expect long.bin "refused with 8 at byte 33"
damage closure.bin 57 004
expect closure.bin "refused with 9 at byte 57"
[ "$failures" -eq 0 ]
