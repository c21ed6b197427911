#!/usr/bin/env bash
# Builds the static library, compiles calls.c against it, runs it, and holds what it prints to expected.txt.
set -euo pipefail

here=$(cd "$(dirname "${BASH_SOURCE[0]}")" && pwd -P)
root=$(cd "$here/../.." && pwd -P)
work=$(mktemp -d)
trap 'rm -rf "$work"' EXIT

"$root/tools/staticlib" >"$work/build.txt" 2>&1 || { tail -n 20 "$work/build.txt"; exit 1; }
gcc -std=c11 -O2 -Wall -Wextra -Werror -I "$root/include" "$here/calls.c" "$root/target/staticlib/libpirkvezo.a" -o "$work/calls"
"$work/calls" >"$work/printed.txt"
diff -u "$here/expected.txt" "$work/printed.txt"
echo "tests/host: ok"
