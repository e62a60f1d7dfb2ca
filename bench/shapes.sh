#!/bin/sh
# Counts the instructions of the program on documents of many shapes, at N, 2 N and 4 N, and prints a table with how they
# grow: by callgrind, which no other work disturbs and which takes some fifty times as long. The program is that of the
# environment's BUNDLE_JSON, else the one that bridge/build makes. Words are those of time.mjs: shapes, SHAPE=N for another
# size, and --seconds for seconds and memory in place of instructions.
set -eu

bench=$(cd "$(dirname "$0")" && pwd)
top=$(dirname "$bench")
program=${BUNDLE_JSON:-$top/bridge/out/bundle_json}
[ -n "${BUNDLE_JSON:-}" ] || "$top/bridge/stamp" is "$program" > /dev/null || "$top/bridge/build"
exec node "$bench/time.mjs" "$program" "$@"
