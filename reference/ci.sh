#!/usr/bin/env bash
# Builds and tests the reference, and checks that the recorded corpus is what the Rust answers. Where cargo
# or the Rust sources are missing it says so and ends well: the recorded corpus then stands for them.
set -euo pipefail
. "$(dirname "$0")/here.sh"

out=$(mktemp -d)
trap 'rm -rf "$out"' EXIT
cargo build --release --offline --quiet
cargo test --release --offline --quiet > "$out/tests" 2>&1 || { cat "$out/tests"; exit 1; }
if cargo clippy --version > /dev/null 2>&1; then
  # our own packages: the Rust sources stay as they are
  cargo clippy --release --offline --quiet --all-targets --no-deps -p harness -p cover -p random -p sheets -p columns -p due -p kept -p words -p standins -p standins-derive -- -D warnings
fi
target/release/record "$out/recorded" "$out/printed"
cmp ../crates/replay/stdin "$out/recorded"
diff -r corpus/printed "$out/printed"
target/release/coverage ../crates/replay/stdin corpus/printed > "$out/coverage" || { cat "$out/coverage"; exit 1; }
echo "reference: the tests pass, the corpus is what the Rust answers, $(tail -n 1 "$out/coverage")"
