#!/usr/bin/env bash
# Times the proved library beside the reference and the C peer, in one process. Where the library
# is not there yet it is proved and built first; PIRKVEZO_LIB names another folder to take it from.
# Arguments are handed on to the bench.
set -euo pipefail
cd "$(dirname "${BASH_SOURCE[0]}")/../.."

if [ -z "${PIRKVEZO_LIB:-}" ]; then
    [ -f target/staticlib/libpirkvezo.a ] || tools/staticlib >&2
    export PIRKVEZO_LIB=../target/staticlib
fi
cd tests
if ! [ -f "$PIRKVEZO_LIB/libpirkvezo.a" ]; then
    echo "there is no $PIRKVEZO_LIB/libpirkvezo.a" >&2
    exit 1
fi
exec cargo run --release --offline --quiet --bin bench -- "$@"
