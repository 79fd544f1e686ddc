#!/usr/bin/env bash
# Builds a Rust program over a crate of Debian's packages: bench/rust_peer.sh CRATE VERSION MAIN PROGRAM
#
# It needs cargo and Debian's package librust-CRATE-dev, and no network. Of one of that package's crates a copy is built
# in which a struct isn't packed, since today's compiler refuses references to a packed struct's fields.
set -eu
crate=$1 version=$2 main=$(realpath "$3") program=$(realpath "$4")
registry=/usr/share/cargo/registry
room=$(mktemp -d)
trap 'rm -rf "$room"' EXIT
mkdir -p "$room/src" "$room/.cargo"
cp -r "$registry"/tendril-0.4.0 "$room/tendril"
rm "$room/tendril/.cargo-checksum.json"
sed -i 's/^#\[repr(packed)\]/#[repr(C)]/' "$room/tendril/src/tendril.rs"
cp "$main" "$room/src/main.rs"
cat >"$room/Cargo.toml" <<END
[package]
name = "peer"
version = "0.1.0"
edition = "2021"

[dependencies]
$crate = "$version"

[patch.crates-io]
tendril = { path = "tendril" }
END
cat >"$room/.cargo/config.toml" <<'END'
[source.crates-io]
replace-with = "debian"

[source.debian]
directory = "/usr/share/cargo/registry"
END
(cd "$room" && cargo build --release --offline --quiet 2>"$room/log") || { tail -n 20 "$room/log"; exit 1; }
cp "$room/target/release/peer" "$program"
