#!/usr/bin/env bash
# Checks a rule text: ./vemalgus.sh FILE, or a text on standard input. The program is proved and built first where that has not been done.
set -euo pipefail
here=$(cd "$(dirname "$0")" && pwd)
program=$here/crates/vemalgus/out/vemalgus
if [ ! -x "$program" ]; then
    # this builds it and runs it once, on the text beside it
    (cd "$here/crates/vemalgus" && rt run < stdin >&2)
fi
exec "$program" < "${1:-/dev/stdin}"
