#!/usr/bin/env bash
# Compares the calls from raw words with the unchanged Rust, where cargo and the Rust sources are at hand.
set -euo pipefail
. "$(dirname "$0")/../../reference/here.sh"
cd ../bindings/judged
if cargo clippy --version > /dev/null 2>&1; then
  cargo clippy --release --offline --quiet --all-targets --no-deps -- -D warnings
fi
cargo run --release --offline --quiet
