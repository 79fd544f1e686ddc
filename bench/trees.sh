#!/usr/bin/env bash
# Times whole pages into `RcDom`: markup of four sizes, and of each kind of page that could take longer than in step
# with its size, 25,000, 50,000 and 100,000 of it. The program is no crate of the repository, so it is proved and built
# in a copy of the crates, in the folder BENCH, which is kept: the first time that takes long.
set -eu
here=$(cd "$(dirname "$0")" && pwd)
. "$here/copy.sh"
build_program "$here" count_trees \
  "tree_forest html_tree_builder html_render_dom thiserror" '<p>' 64 1

show() {
  bytes=$(stat -c %s "$folder/page")
  rm -f "$folder/times.new"
  # the program takes the time itself, and prints the best of its readings in microseconds
  for _ in 1 2 3; do
    /usr/bin/time -f %M -o "$folder/memory" "$crate/out/count_trees" 64 3 <"$folder/page" >>"$folder/times.new"
  done
  read -r _ microseconds < <(sort -n -k 2 "$folder/times.new")
  read -r kilobytes <"$folder/memory"
  python3 -c "print(f'$1: {$microseconds / 1000:8.1f} ms, {$bytes / $microseconds:6.2f} MB/s, '
    f'peak {$kilobytes / 1000:6.1f} MB, {$kilobytes * 1000 / $bytes:5.1f} bytes a byte')"
}

for size in 1 2 4 8; do
  python3 "$here/make_tokens.py" markup "$size" >"$folder/page"
  show "markup, $size MB"
done
for kind in div i li p cells a attributes other_ends listed_ends listed foreign_ends adopted fostered \
  body_attributes; do
  for count in 25000 50000 100000; do
    python3 "$here/make_nested.py" "$kind" "$count" >"$folder/page"
    show "$kind, $count"
  done
done
