#!/usr/bin/env bash
# Tests the Rust crate against the archive: that of the directory MAYBENOT_ARCHIVE_DIR, else of crates/sender/out.
set -euo pipefail
cd "$(dirname "$0")"
out=$(mktemp -d)
trap 'rm -rf "$out"' EXIT

if ! command -v cargo > /dev/null; then
  echo "bindings/rust: cargo is not here, nothing was tested"
  exit 0
fi

# quietly COMMAND ..: its output only where it fails
quietly() { "$@" > "$out/log" 2>&1 || { cat "$out/log"; exit 1; }; }

# A binding of another version does not link, in debug and in release.
check_version() {
  local version other
  version=$(sed -n 's/^pub const INTERFACE: u64 = \([0-9]*\);$/\1/p' src/sys.rs)
  other=$((version + 1))
  mkdir "$out/other"
  cp -r Cargo.toml build.rs src examples "$out/other"
  sed -i '/^\[dev-dependencies\]$/,/^$/d' "$out/other/Cargo.toml"
  sed -i "s/maybenot_interface_$version/maybenot_interface_$other/" "$out/other/src/sys.rs"
  for profile in dev release; do
    if MAYBENOT_ARCHIVE_DIR=${MAYBENOT_ARCHIVE_DIR:-$PWD/../../crates/sender/out} CARGO_TARGET_DIR=$out/target \
      cargo build --offline --profile $profile --manifest-path "$out/other/Cargo.toml" --example sender > "$out/log" 2>&1; then
      echo "bindings/rust: a binding of another version links ($profile)"
      exit 1
    fi
    grep -q "undefined.*maybenot_interface_$other" "$out/log" || { cat "$out/log"; exit 1; }
  done
}

quietly cargo test --offline --quiet
quietly cargo run --offline --quiet --example sender
quietly cargo run --offline --quiet --example sender 2 5000
lints=""
if cargo clippy --version > /dev/null 2>&1; then
  quietly cargo clippy --offline --quiet --all-targets -- -D warnings
  lints=", clippy has nothing to say"
fi
check_version
echo "bindings/rust: the tests pass, the example sender runs within its budgets, a binding of another version does not link$lints"
