#!/usr/bin/env bash
# Tests what links the archive: the C interface, the Rust crate with its example, and calls beside the Rust.
set -euo pipefail
cd "$(dirname "$0")"
c/ci.sh
rust/ci.sh
judged/ci.sh
