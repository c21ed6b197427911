#!/usr/bin/env bash
# Runs the desk's tests. The shared library is linked from target/staticlib/libpirkvezo.a where that is there (the gate has it by
# then), and made as ./pirkvezo makes it otherwise. Quiet: the last line says how many tests passed.
set -euo pipefail
root=$(cd "$(dirname "${BASH_SOURCE[0]}")/.." && pwd -P)
work=$(mktemp -d)
trap 'rm -rf "$work"' EXIT
cd "$root"
export PYTHONPATH=$root/desk PYTHONDONTWRITEBYTECODE=1

if [ -f target/staticlib/libpirkvezo.a ]; then
    gcc -shared -o "$work/libpirkvezo.so" -Wl,--whole-archive target/staticlib/libpirkvezo.a -Wl,--no-whole-archive
    export PIRKVEZO_SHARED=$work/libpirkvezo.so
else
    python3 -c 'from pirkvezo import build; build.ensure()'
fi
if ! python3 -m unittest discover -s desk/tests >"$work/said.txt" 2>&1; then
    cat "$work/said.txt"
    exit 1
fi
echo "desk: $(sed -n 's/^Ran \([0-9]*\) tests.*/\1/p' "$work/said.txt") tests passed"
