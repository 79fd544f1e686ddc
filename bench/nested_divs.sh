#!/usr/bin/env bash
# Times tree construction on nested `div` elements: 25,000, 50,000 and 100,000 of them, each of which asks for a `p` in
# button scope. The program is no crate of the repository, so it is proved and built in a copy of the crates that it
# stands on, in the folder BENCH, which is kept: the first time that takes minutes.
set -eu
here=$(cd "$(dirname "$0")" && pwd)
. "$here/copy.sh"
folder=${BENCH:-${TMPDIR:-/tmp}/nested_divs_bench}
crate=$folder/crates/nested_divs
below="lex_base lex_base lex_base lex_base html_lexemes tree_forest tree_forest tree_names"
below="$below tree_serializer tree_formatting tree_predicates tree_model html_tree_state"
below="$below text_lines text_decorators text_pieces dom_styles html_render_dom"
mkdir -p "$crate/src" "$crate/proofs/nest"
copy_crates "$here" "$folder" $below
{
  for name in $below; do grep "^$name:" "$here/../crates.txt"; done
  echo "nested_divs: $below thiserror"
} >"$folder/crates.txt"
cp "$here/nested_divs/main.rt.txt" "$crate/src/main.rt"
cp "$here/nested_divs/Invariants.antt.txt" "$crate/proofs/nest/Invariants.antt"
: >"$crate/stdin"
(cd "$crate" && rt run -- 10 1 >"$folder/log" 2>&1) || { tail -n 20 "$folder/log"; exit 1; }

for elements in 25000 50000 100000; do
  microseconds=$("$crate/out/nested_divs" "$elements" 8)
  each=$((microseconds * 1000 / elements))
  python3 -c "print(f'{$elements:7,} elements: {$microseconds / 1000:7.1f} ms, {$each:6} ns each')"
done
