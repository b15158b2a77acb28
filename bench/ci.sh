#!/usr/bin/env bash
# Checks that the benchmark compiles, where cargo and the Rust sources are at hand. It is not run: a gate measures nothing.
set -euo pipefail
. "$(dirname "$0")/../reference/here.sh"
cd ../bench
if cargo clippy --version > /dev/null 2>&1; then
  cargo clippy --offline --quiet --all-targets --no-deps -- -D warnings
else
  cargo check --offline --quiet --all-targets
fi
echo "bench: it compiles"
