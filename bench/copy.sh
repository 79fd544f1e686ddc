# Sourced by the other scripts: copies crates of the repository into a folder, where what was proved of a copy is kept,
# and builds programs over them.
#   copy_crates HERE FOLDER NAME..
copy_crates() {
  local here=$1 folder=$2 name
  shift 2
  for name in "$@"; do
    mkdir -p "$folder/crates/$name"
    find "$folder/crates/$name" -mindepth 1 -maxdepth 1 ! -name out -exec rm -r {} +
    find "$here/../crates/$name" -mindepth 1 -maxdepth 1 ! -name out -exec cp -r {} "$folder/crates/$name" \;
  done
  cp "$here/../HANDLES" "$folder"
}

# the names of all crates of the repository
all_crates() {
  grep -oE '^[a-z_0-9]+' "$1/../crates.txt"
}

# Proves and builds a program, NAME/main.rt.txt, which stands on those libraries, in a copy of all crates, and runs it
# once on a page with those words. It sets `folder`, which is kept, and `crate` in it.
#   build_program HERE NAME LIBRARIES PAGE [WORD..]
build_program() {
  local here=$1 name=$2 libraries=$3 page=$4
  shift 4
  folder=${BENCH:-${TMPDIR:-/tmp}/${name}_bench}
  crate=$folder/crates/$name
  mkdir -p "$crate/src"
  copy_crates "$here" "$folder" $(all_crates "$here")
  {
    cat "$here/../crates.txt"
    echo "$name: $libraries"
  } >"$folder/crates.txt"
  cp "$here/$name/main.rt.txt" "$crate/src/main.rt"
  echo "$page" >"$crate/stdin"
  (cd "$crate" && rt run ${1+-- "$@"} >"$folder/log" 2>&1) || { tail -n 20 "$folder/log"; exit 1; }
}
