#!/usr/bin/env bash
# Times pages converted to render trees, and these measured, copied and dropped: elements within one another, and
# paragraphs side by side, 25,000, 50,000 and 100,000 each. The program is no crate of the repository, so it is proved
# and built in a copy of the crates, in the folder BENCH, which is kept: the first time that takes long.
set -eu
here=$(cd "$(dirname "$0")" && pwd)
. "$here/copy.sh"
build_program "$here" render_trees \
  "tree_forest html_tree_builder html_render_dom render_values render_sizes render_conversion thiserror" '<p>x'

show() {
  read -r nodes converted sized copied dropped < <("$crate/out/render_trees" <"$folder/page")
  python3 -c "print(f'$1: $nodes nodes, converted in {$converted / 1000:.1f} ms, measured in {$sized / 1000:.1f} ms, '
    f'copied in {$copied / 1000:.1f} ms, dropped in {$dropped / 1000:.1f} ms')"
}

for kind in i flat; do
  for count in 25000 50000 100000; do
    python3 "$here/make_nested.py" "$kind" "$count" >"$folder/page"
    show "$kind, $count"
  done
done
