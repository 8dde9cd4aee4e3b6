#!/usr/bin/env bash
# Sees that the examples that the tests run are those of examples/, the names that they compare those of editors/, and the
# names in crates.txt such as their crates cite, runs the merge gate, and prints what each crate cost it, in processor
# minutes: see gate.py.
here=$(dirname "$0")
python3 "$here/examples.py" --check || exit 1
python3 "$here/editors.py" --check || exit 1
python3 "$here/crates.py" --check 196000 || exit 1
exec python3 "$here/gate.py" "$@"
