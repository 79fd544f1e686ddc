#!/usr/bin/env bash
# Times the tokenizer, with a sink that only counts, on pages of six kinds and four sizes, fed in pieces of that many
# kilobytes (64 without a word). The program is no crate of the repository, so it is proved and built in a copy of the
# crates that it stands on, in the folder BENCH, which is kept: the first time that takes minutes.
set -eu
here=$(cd "$(dirname "$0")" && pwd)
. "$here/copy.sh"
piece=${1:-64}
folder=${BENCH:-${TMPDIR:-/tmp}/count_tokens_bench}
crate=$folder/crates/count_tokens
below="lex_base lex_base lex_base lex_base"
below="$below html_lexemes token_errors token_grammar token_states html_tokenizer"
mkdir -p "$crate/src" "$crate/proofs/count"
copy_crates "$here" "$folder" $below
{
  for name in $below; do grep "^$name:" "$here/../crates.txt"; done
  echo 'count_tokens: html_lexemes token_errors token_grammar token_states html_tokenizer thiserror'
} >"$folder/crates.txt"
cp "$here/count_tokens/main.rt.txt" "$crate/src/main.rt"
cp "$here/count_tokens/Invariants.antt.txt" "$crate/proofs/count/Invariants.antt"
echo '<p>' >"$crate/stdin"
(cd "$crate" && rt run -- "$piece" data 1 >"$folder/log" 2>&1) || { tail -n 20 "$folder/log"; exit 1; }

for kind in markup text references comment attributes script; do
  state=data
  if [ "$kind" = script ]; then state=script; fi
  for size in 1 2 4 8; do
    python3 "$here/make_tokens.py" "$kind" "$size" >"$folder/page"
    rm -f "$folder/times.new"
    # the program takes the time itself, and prints the best of its readings in microseconds
    for _ in 1 2 3 4; do
      /usr/bin/time -f %M -o "$folder/memory" \
        "$crate/out/count_tokens" "$piece" "$state" 8 <"$folder/page" >>"$folder/times.new"
    done
    mv "$folder/times.new" "$folder/times"
    read -r tokens microseconds < <(sort -n -k 2 "$folder/times")
    read -r kilobytes <"$folder/memory"
    python3 -c "print(f'{\"$kind\":10} {$size} MB: {$tokens:8} tokens, {$microseconds / 1000:6.1f} ms, '
      f'{$size * 1e6 / $microseconds:4.0f} MB/s, peak {$kilobytes / 1000:5.1f} MB')"
  done
done
