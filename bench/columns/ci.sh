#!/usr/bin/env bash
# Compares the library's columns with plain Rust, where cargo is at hand. It measures nothing.
set -euo pipefail
cd "$(dirname "$0")"
command -v cargo > /dev/null || { echo "bench/columns: cargo is not here, nothing was compared"; exit 0; }
if cargo clippy --version > /dev/null 2>&1; then
  cargo clippy --offline --quiet --all-targets --no-deps -- -D warnings
fi
log=$(mktemp)
trap 'rm -f "$log"' EXIT
cargo test --release --offline --quiet > "$log" 2>&1 || { cat "$log"; exit 1; }
echo "bench/columns: numbers stand in their columns as plain Rust puts them"
