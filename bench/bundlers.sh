#!/bin/sh
# Usage: bench/bundlers.sh [PROGRAM]. Times the command on lodash-es, d3, three and rxjs of Debian, beside esbuild with one
# thread and without tree shaking, and prints a table: user and system seconds, the least of five runs, and the memory at the
# peak. Builds `out/gutsirava` where no PROGRAM is named. It needs Debian's packages `esbuild`, `nodejs` and `time`.
set -eu

bench=$(cd "$(dirname "$0")" && pwd)
top=$(dirname "$bench")
if [ $# -gt 0 ]; then
    program=$1
else
    "$top/build" >&2
    program=$top/out/gutsirava
fi
packages=$("$top/tests/command/fetch")
exec node "$bench/bundlers.mjs" "$program" "$packages"
