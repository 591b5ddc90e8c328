#!/bin/sh
# Shows that the compiler refuses a hold that arrives and a passage that is withdrawn. Such a program never reaches the
# prover, so it is no must-fail edit of the gate. Run it by `make rejected`.
set -eu
root=$(cd "$(dirname "$0")/.." && pwd)
work=$(mktemp -d)
trap 'rm -rf "$work"' EXIT
(cd "$root" && tar cf - --exclude=out crates crates.txt) | tar xf - -C "$work"
client=crates/token_cases/src/lib.rt

# rejected WHAT OLD NEW WORDS: with OLD replaced by NEW in the client of the tokens, the compiler says WORDS
rejected() {
    grep -q -F "$2" "$root/$client" || { echo "$1: the client has no '$2'"; exit 1; }
    OLD="$2" NEW="$3" perl -0pe 's/\Q$ENV{OLD}\E/$ENV{NEW}/' "$root/$client" > "$work/$client"
    if (cd "$work/crates/token_cases" && rt check > "$work/said" 2>&1); then
        echo "$1: NOT refused"
        exit 1
    fi
    if ! grep -q -F "$4" "$work/said"; then
        echo "$1: refused, but not for its types:"
        tail -5 "$work/said"
        exit 1
    fi
    echo "$1: refused"
    grep -F "$4" "$work/said" | head -1 | sed "s|$work/||"
}

rejected "a hold that arrives" \
    "controller.confirm(hold)" \
    "controller.arrive(hold)" \
    "expected \`Token<UnderWay>\`, found \`Token<Held>\`"
rejected "a passage that is withdrawn" \
    "Ok(passage)" \
    "Ok(controller.withdraw(passage)?)" \
    "expected \`Token<Held>\`, found \`Token<UnderWay>\`"
