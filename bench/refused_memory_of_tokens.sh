#!/usr/bin/env bash
# Runs the built stored_rows with each request for memory refused in turn: on every thirtieth of its cases of tokens, on
# every forty-sixth of its trees, and on a reference of a table of three names. A run must write what the unhindered run
# writes; or a beginning of it, say that memory ran out, and end with status 1.
set -eu
here=$(cd "$(dirname "$0")" && pwd)
room=$(mktemp -d)
trap 'rm -rf "$room"' EXIT
cc -shared -fPIC -o "$room/refuse.so" "$here/refuse.c" -ldl
stored=$here/../crates/stored_rows
grep $'^tokens\t' "$stored/stdin" | sed -n '1~30{p;s/.*//p}' >"$room/tokens.in"
grep $'^tree\t' "$stored/stdin" | sed -n '1~46{p;s/.*//p}' >"$room/trees.in"
printf 'table\t%s\n\nreference\tamp\n\n' \
  '{"&amp":{"codepoints":[38]},"&lt;":{"codepoints":[60]},"&not":{"codepoints":[172]}}' >"$room/references.in"

# refuse CASES: each request of a run refused in turn, up to one that the run does not make
refuse() {
  cases=$1
  (cd "$stored" && rt run <"$room/$cases.in" >"$room/whole" 2>/dev/null)
  whole=0 memory=0 other=0 number=0
  while [ "$whole" -lt 20 ]; do
    number=$((number + 1)) status=0
    REFUSE=$number LD_PRELOAD=$room/refuse.so "$stored/out/stored_rows" <"$room/$cases.in" >"$room/out" \
      2>"$room/err" || status=$?
    if [ "$status" = 0 ] && cmp -s "$room/out" "$room/whole"; then
      whole=$((whole + 1))
    elif [ "$status" = 1 ] && cmp -s -n "$(stat -c %s "$room/out")" "$room/out" "$room/whole" &&
      grep -qi 'memory\|read or write failed' "$room/err"; then
      memory=$((memory + 1))
    else
      other=$((other + 1))
      echo "$cases, request $number: status $status, $(head -c 200 "$room/err")"
    fi
  done
  echo "$cases: $memory refused runs wrote a beginning and said that memory ran out, $whole wrote it all," \
    "$other did anything else"
}

refuse tokens
refuse trees
refuse references
