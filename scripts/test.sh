#!/usr/bin/env bash
# All tests, with the seconds of each part. `rt ci` proves everything, and refuses sources that are not laid out; what is
# built is then compared with the model. Its verdict is printed again as the last line, where all else passed, too.
set -euo pipefail
cd "$(dirname "$0")/.."
verdict=$(mktemp)
trap 'rm -f "$verdict"' EXIT

part() { # WHAT COMMAND..
    what=$1
    shift
    echo "== $what"
    began=$SECONDS
    "$@"
    echo "== $what: $((SECONDS - began)) s"
}

# `rt ci` passes where a must-fail edit is bad, as one that no longer applies: such an edit shows nothing, so it fails here.
proofs() {
    rt ci | tee "$verdict"
    grep -q '^rt: ok\b' "$verdict"
    bad=$(sed -n 's/^rt: ok\b.*must-fail edits: [^;]*, \([0-9]*\) bad.*/\1/p' "$verdict")
    if [ "${bad:-0}" -gt 0 ]; then
        echo "must-fail edits: $bad bad"
        return 1
    fi
}

part "docs/TRACE.md against the sources" python3 tests/trace.py
part "proofs, must-fail edits and stored outputs" proofs
part "the model's own tests" make --no-print-directory model
part "library and model on generated days" make --no-print-directory compare
part "program and model on generated days" make --no-print-directory program
part "an example script" make --no-print-directory replay
part "library, program and model on generated scripts" make --no-print-directory scripts
tail -n 1 "$verdict"
