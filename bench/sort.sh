#!/bin/sh
# Times the sort of numbered items on large inputs, as run.sh does the graphs.
set -eu

bench=$(cd "$(dirname "$0")" && pwd)
top=$(dirname "$bench")
copy=$(mktemp -d)
trap 'rm -rf "$copy"' EXIT

mkdir "$copy/crates"
cp -r "$top/crates/bundle_tree_names" "$top/crates/bundle_order_graph" "$top/crates/bundle_order_sort" "$bench/bench_sort" "$copy/crates/"
# The gate takes no source that it does not prove, so these stand here under another name.
for source in "$copy"/crates/bench_sort/src/*.rt.txt; do
    mv "$source" "${source%.txt}"
done
cp "$top/HANDLES" "$copy/"
grep -E '^bundle_(tree_names|order_graph|order_sort)( |:)' "$top/crates.txt" > "$copy/crates.txt"
echo 'bench_sort: bundle_order_graph bundle_order_sort' >> "$copy/crates.txt"

cd "$copy/crates/bench_sort"
if ! rt run 2> "$copy/log"; then
    cat "$copy/log" >&2
    exit 1
fi
