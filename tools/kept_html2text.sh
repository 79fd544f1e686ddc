#!/usr/bin/env bash
# Prints the path of html2text as the sources of this repository have it, built without proof, and builds it where none
# of these sources is kept:
#
#     tools/kept_html2text.sh
#
# A program is kept by the sum of what it is built from: the lines of crates.txt and the files src/*.rt of the crates
# that it stands on, the kit's id, and the scripts that build. It lies in ${XDG_CACHE_HOME:-~/.cache}/sofagoose and not
# in the repository: clones share it, `git clean` and `rt ci` leave it, the repository may be read-only, and no unproved
# program lies where a proved one is built. The newest ten stay.
set -euo pipefail
unset CDPATH
stop() {
  echo "html2text: $1" >&2
  exit 1
}
# A function, so that the script is read whole before it runs for minutes.
main() {
  top=$(cd -P -- "$(dirname -- "${BASH_SOURCE[0]}")/.." && pwd)
  case ${XDG_CACHE_HOME:-} in
  /*) cache=$XDG_CACHE_HOME/sofagoose ;;
  *) cache=${HOME:-}/.cache/sofagoose ;;
  esac
  case $cache in /.cache/*) stop 'neither HOME nor XDG_CACHE_HOME says where it can be kept' ;; esac
  rt=$(type -P rt) || stop "Rattle's kit is needed to build it, and its command rt is not on PATH"
  kit=$(dirname -- "$(rt doc)")
  programs=$cache/programs noted=$cache/trees$top/.inputs
  mkdir -p -- "$programs" "${noted%/*}" 2>/dev/null ||
    stop "can't be kept in $cache: set XDG_CACHE_HOME to another folder"
  room=$(mktemp -d) new=
  trap 'rm -rf -- "$room" ${new:+"$new"}' EXIT
  trap 'exit 130' INT
  trap 'exit 143' TERM HUP

  # What is summed and built is a copy, so that an edit in the meantime can't change one of them alone. The note is
  # older than the copy, so that all that changes from now on is newer than the note.
  touch -d '2 seconds ago' "$room/began"
  mkdir "$room/tree"
  awk -v program=html2text_program '
    { sub(/#.*/, "") }
    NF { name = $1; sub(/:.*/, "", name); line[name] = $0; sub(/^[^:]*:?/, ""); uses[name] = $0 }
    function take(name,   words, count, at) {
      if (!(name in line) || name in taken) return
      taken[name] = 1
      count = split(uses[name], words, /[ ,]+/)
      for (at = 1; at <= count; at++) take(words[at])
      print line[name]
    }
    END { take(program) }' "$top/crates.txt" >"$room/tree/crates.txt"
  mapfile -t sources < <(sed 's|[ :].*||; s|.*|crates/&/src|' "$room/tree/crates.txt")
  scripts=(bench/bare_module.py bench/unproved.sh)
  cd -- "$top"
  find "${sources[@]}" -name '*.rt' -print0 | xargs -0 cp --parents -t "$room/tree"
  cp --parents -t "$room/tree" "${scripts[@]}"
  cp -- "$kit/KIT-ID" "$room/tree/"
  cd -- "$room/tree"
  sum=$(find . -type f -print0 | LC_ALL=C sort -z | xargs -0 sha256sum | sha256sum | cut -d' ' -f1)
  program=$programs/$sum/html2text

  if [ ! -x "$program" ]; then
    exec 9>"$cache/lock"
    if ! flock -n 9; then
      echo 'html2text: another build runs; waits for its end' >&2
      flock 9
    fi
  fi
  if [ ! -x "$program" ]; then
    echo "html2text: is built once for these sources, without proof, in some minutes; kept in $programs/$sum" >&2
    new=$(mktemp -d -- "$programs/new.XXXXXX")
    if ! bench/unproved.sh crates/html2text_program "$new/html2text" 2>"$room/why" 9>&-; then
      sed "s|$room/tree|$top|g" "$room/why" >&2
      stop 'was not built'
    fi
    mkdir -p -- "$programs/$sum"
    mv -- "$new/html2text" "$program"
    rmdir -- "$new"
    (cd -- "$programs" && ls -t | tail -n +11 | xargs -r rm -rf --)
  fi

  # The note for tools/html2text. Without it the sources are summed again the next time.
  printf '%s\0' "$program" "$rt" "$kit/KIT-ID" "$top/crates.txt" "${scripts[@]/#/$top/}" "${sources[@]/#/$top/}" \
    >"$room/note"
  touch -r "$room/began" "$room/note"
  cp -p -- "$room/note" "$noted.$$" 2>/dev/null && mv -- "$noted.$$" "$noted" || true
  printf '%s\n' "$program"
}
main "$@"; exit
