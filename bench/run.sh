#!/bin/sh
# Times the graphs on large inputs: builds the program bench_graph, proved, over a copy of the crates
# that it uses, and runs it. What earlier checks of those crates kept is taken along, so that only
# what is new gets proved; with nothing kept, that takes some ten minutes.
set -eu

bench=$(cd "$(dirname "$0")" && pwd)
top=$(dirname "$bench")
copy=$(mktemp -d)
trap 'rm -rf "$copy"' EXIT

mkdir "$copy/crates"
cp -r "$top/crates/bundle_tree_names" "$top/crates/bundle_order_graph" "$bench/bench_graph" "$copy/crates/"
# The gate takes no source that it does not prove, so these stand here under another name.
for source in "$copy"/crates/bench_graph/src/*.rt.txt; do
    mv "$source" "${source%.txt}"
done
cp "$top/HANDLES" "$copy/"
grep -E '^bundle_(tree_names|order_graph)( |:)' "$top/crates.txt" > "$copy/crates.txt"
echo 'bench_graph: bundle_tree_names bundle_order_graph' >> "$copy/crates.txt"

cd "$copy/crates/bench_graph"
if ! rt run 2> "$copy/log"; then
    cat "$copy/log" >&2
    exit 1
fi
