#!/usr/bin/env bash
# Builds the Rust crate html2text as a program: bench/html2text_rs/build.sh PROGRAM
set -eu
here=$(cd "$(dirname "$0")" && pwd)
exec "$here/../rust_peer.sh" html2text 0.4 "$here/main.rs" "$1"
