#!/bin/sh
# Usage: bench/maps.sh [PROGRAM [PACKAGE..]]. What source maps cost: the million instructions (callgrind) in which the command
# bundles packages of Debian, without `--sourcemap` and with it, and how much more the latter are. Without PACKAGE: lodash-es,
# d3, three and rxjs. Builds `out/gutsirava` where no PROGRAM is named. It needs Debian's package `valgrind`.
set -eu

bench=$(cd "$(dirname "$0")" && pwd)
top=$(dirname "$bench")
if [ $# -gt 0 ]; then
    program=$(readlink -f "$1")
    shift
else
    "$top/build" >&2
    program=$top/out/gutsirava
fi
[ $# -gt 0 ] || set -- lodash-es d3 three rxjs
packages=$("$top/tests/command/fetch")
work=$(mktemp -d)
trap 'rm -rf "$work"' EXIT
ln -s "$packages/node_modules" "$work/node_modules"
cd "$work"

# The instructions of the command with these words.
instructions() {
    valgrind --tool=callgrind --callgrind-out-file=/dev/null "$program" "$@" > log 2>&1 || { cat log >&2 && return 1; }
    sed -n 's/^==[0-9]*== Collected : //p' log
}
for package do
    printf "export * from '%s';\n" "$package" > entry.mjs
    plain=$(instructions entry.mjs --main-fields=module,main -o plain.mjs)
    mapped=$(instructions entry.mjs --main-fields=module,main -o mapped.mjs --sourcemap)
    [ -s mapped.mjs.map ]
    echo "$package $plain $mapped" | awk '{ printf "%s %.0f %.0f +%.1f %%\n", $1, $2 / 1e6, $3 / 1e6, ($3 / $2 - 1) * 100 }'
done
