#!/usr/bin/env bash
# Times trees written as lines, and dropped: 250,000, 500,000 and 1,000,000 nodes side by side, and elements within one
# another. The program is no crate of the repository, so it is proved and built in a copy of the crates, in the folder
# BENCH, which is kept: the first time that takes long.
set -eu
here=$(cd "$(dirname "$0")" && pwd)
. "$here/copy.sh"
build_program "$here" dump_trees \
  "dom_writing tree_forest html_tree_builder html_render_dom thiserror" '<p>' dump

show() {
  read -r bytes written dropped < <("$crate/out/dump_trees" "$2" <"$folder/page")
  python3 -c "print(f'$1: $bytes bytes, written in {$written / 1000:.1f} ms, dropped in {$dropped / 1000:.1f} ms')"
}

for count in 125000 250000 500000; do
  python3 "$here/make_nested.py" flat "$count" >"$folder/page"
  show "paragraphs with a text, $count" dump
done
# the lines of elements within one another are as long as their levels, so all together grow as the square
for count in 5000 10000 20000; do
  python3 "$here/make_nested.py" div "$count" >"$folder/page"
  show "elements within one another, $count" dump
done
for count in 50000 100000 200000; do
  python3 "$here/make_nested.py" div "$count" >"$folder/page"
  show "elements within one another, $count" drop
done
