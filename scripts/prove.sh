#!/usr/bin/env bash
# prove.sh program|library NAME: proves a crate and what it needs, where that is not done yet, and builds it: the program
# target/bin/NAME, or the static library target/staticlib/libNAME.a. Where NAME is a library for other crates, too, its
# exports are the crate NAME_c. Says on standard error which crate is proved and its seconds, of those that were not proved
# before; prints the whole log only where something fails.
set -euo pipefail
cd "$(dirname "$0")/.."
kind=$1 name=$2
crate=$name
if [ "$kind" = library ] && [ -d "crates/${name}_c" ]; then
    crate=${name}_c
fi
mkdir -p target/bin target/staticlib
log=target/$crate.log

# How many crates of this repository a crate needs, itself included.
count() {
    awk -F': *' -v want="$1" '
        /^[a-z_]+( staticlib)?:/ { sub(/ staticlib$/, "", $1); needs[$1] = $2 }
        END {
            n = 1; todo[1] = want; seen[want] = 1
            for (i = 1; i <= n; i++) {
                m = split(needs[todo[i]], d, " ")
                for (j = 1; j <= m; j++)
                    if ((d[j] in needs) && !(d[j] in seen)) { seen[d[j]] = 1; todo[++n] = d[j] }
            }
            print n
        }' crates.txt
}

# A program is run once it is built, here on no input.
build() {
    cd "crates/$crate"
    case $kind in
    program) rt run </dev/null 2>&1 >/dev/null ;;
    library) rt lib 2>&1 ;;
    *) echo "prove.sh program|library NAME, and not $kind" && exit 2 ;;
    esac
}

progress() {
    began=$SECONDS
    while IFS= read -r line; do
        case $line in
        'crate '*': modules '*)
            at=${line#crate }
            at=${at%%:*}
            ;;
        'logic=proved '*)
            echo "$at proved in $((SECONDS - began)) s" >&2
            began=$SECONDS
            ;;
        esac
    done
}

if ! (build) | tee "$log" | progress; then
    cat "$log" >&2
    exit 1
fi
case $kind in
program) built=target/bin/$name && cp -f "crates/$crate/out/$crate" "$built" ;;
library) built=target/staticlib/lib$name.a && cp -f "crates/$crate/out/lib$crate.a" "$built" ;;
esac
echo "$crate and what it needs, $(count "$crate") crates: proved, $built is built" >&2
