#!/usr/bin/env bash
# Builds html5ever's counterpart of count_tokens and count_trees: bench/html5ever/build.sh PROGRAM
set -eu
here=$(cd "$(dirname "$0")" && pwd)
exec "$here/../rust_peer.sh" html5ever 0.26 "$here/main.rs" "$1"
