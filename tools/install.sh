#!/usr/bin/env bash
# Proves and builds html2text, and installs it: tools/install.sh --help says how.
set -euo pipefail
unset CDPATH
help='usage: tools/install.sh [--unproved] [PREFIX]

Proves the program and what it stands on, builds it, and puts it into PREFIX/bin (by default ~/.local/bin) under the
name html2text, with its manual page, the table of references of the standard, and completions for bash, zsh and fish
under PREFIX/share. The proofs take hours; they go on where an earlier run was stopped.

  --unproved  builds the program without proof, in some minutes, where tools/html2text has not yet done so
  --help      prints this and ends

With DESTDIR set, the files go to $DESTDIR/PREFIX.'
refuse() {
  printf 'tools/install.sh: %s\n%s\n' "$1" "${help%%$'\n'*}" >&2
  exit 2
}
# A function, so that the script is read whole before it runs for minutes.
main() {
  unproved= prefix=
  for word; do
    case $word in
    --help)
      printf '%s\n' "$help"
      exit 0
      ;;
    --unproved) unproved=yes ;;
    -*) refuse "$word is no option" ;;
    '') refuse 'PREFIX is empty' ;;
    *)
      if [ -n "$prefix" ]; then refuse "$word is a second PREFIX"; fi
      prefix=$word
      ;;
    esac
  done
  if [ -z "$prefix" ]; then
    if [ -z "${HOME:-}" ]; then refuse 'HOME is not set: give PREFIX'; fi
    prefix=$HOME/.local
  fi
  case $prefix in /*) ;; *) prefix=$PWD/$prefix ;; esac
  case ${DESTDIR:-} in '' | /*) ;; *) DESTDIR=$PWD/$DESTDIR ;; esac
  to=${DESTDIR:-}$prefix
  top=$(cd -P -- "$(dirname -- "${BASH_SOURCE[0]}")/.." && pwd)
  if ! command -v rt >/dev/null; then
    echo "tools/install.sh: Rattle's kit is needed, and its command rt is not on PATH" >&2
    exit 127
  fi

  if [ -n "$unproved" ]; then
    program=$("$top/tools/kept_html2text.sh")
  else
    cd -- "$top/crates/html2text_program"
    # A crate a processor, and some three gigabytes of memory for each.
    room=$(awk '/^MemAvailable/ { print int($2 / 3000000) }' /proc/meminfo)
    jobs=$(nproc)
    if [ "$room" -lt "$jobs" ]; then jobs=$((room > 0 ? room : 1)); fi
    rt all check --jobs "$jobs"
    # Builds it, and runs it on an empty page.
    rt run </dev/null >/dev/null
    program=$PWD/out/html2text_program
  fi
  cd -- "$top/share"
  install -D -m 755 -- "$program" "$to/bin/html2text"
  share=$to/share
  install -D -m 644 -- html-references.json "$share/html2text/html-references.json"
  install -D -m 644 -- man/man1/html2text.1 "$share/man/man1/html2text.1"
  install -D -m 644 -- completions/html2text.bash "$share/bash-completion/completions/html2text"
  install -D -m 644 -- completions/_html2text "$share/zsh/site-functions/_html2text"
  install -D -m 644 -- completions/html2text.fish "$share/fish/vendor_completions.d/html2text.fish"
  echo "$to/bin/html2text"
  if [ -n "$unproved" ]; then
    echo 'tools/install.sh: it is not proved: no contract is known to hold of it, and it checks nothing as it runs' >&2
  fi
}
main "$@"; exit
