#!/usr/bin/env bash
# Runs the built programs on the pages of their stored runs, html2text_program with a table of references in a file,
# each request for memory refused in turn. A run must write the page's text, or write nothing, say that memory ran out,
# and end with status 1 (the page), 2 (the words) or 3 (the table). Then it does so with nine tests.
set -eu
here=$(cd "$(dirname "$0")" && pwd)
room=$(mktemp -d)
trap 'rm -rf "$room"' EXIT
cc -shared -fPIC -o "$room/refuse.so" "$here/refuse.c" -ldl
refused() {
  REFUSE=$1 LD_PRELOAD=$room/refuse.so "${@:2}"
}
try_program() {
  local crate=$here/../crates/$1 folder page=/dev/null words=() whole=0 memory=0 other=0 number status
  (cd "$crate" && rt run </dev/null >/dev/null 2>&1) || true
  mapfile -t words <"$crate/args"
  if [ -f "$crate/stdin" ]; then page=$crate/stdin; fi
  if [ -d "$crate/data" ]; then folder=$crate/data; else folder=$crate; fi
  for number in $(seq 1 1500); do
    status=0
    (cd "$folder" && refused "$number" "$crate/out/$1" "${words[@]}" <"$page" >"$room/out" 2>"$room/err") || status=$?
    if [ "$status" = 0 ] && cmp -s "$room/out" "$crate/stdout"; then
      whole=$((whole + 1))
    elif [ ! -s "$room/out" ] && grep -q 'out of memory' "$room/err"; then
      memory=$((memory + 1))
    else
      other=$((other + 1))
      echo "$1, request $number: status $status, $(head -c 200 "$room/err")"
    fi
  done
  echo "$1: $whole wrote the page, $memory said that memory ran out and wrote nothing, $other did anything else"
}
try_program html2text_program
# the tests of a crate that hold either way
try_tests() {
  (cd "$here/../crates/$1" && rt test >/dev/null 2>&1)
  python3 "$here/refused_tests.py" "$here/../crates/$1/out/$1_tests" "${@:2}" || true
}
try_tests test_pages page_rows::a_refused_growth_is_reported word_rows::reads_lines_or_refuses \
  decoder_rows::replaces_in_single_bytes_or_refuses refused_rows::pages_are_answered_or_refused \
  refused_rows::tables_have_their_fault_or_are_refused refused_rows::a_refused_page_goes_no_further
try_tests test_pages fault_rows::a_refused_growth_changes_no_answer written_rows::a_refused_growth_is_reported \
  article_rows::an_article_is_laid_out_or_refused
