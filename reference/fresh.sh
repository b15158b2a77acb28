#!/usr/bin/env bash
# fresh.sh [REPLAY]: compares actions, states and draws with the Rust's on generated inputs by the program replay: the one
# named by an absolute path, else that of crates/replay/out (`rt run` there builds it). The seeds come from the commit: each
# commit has a range of its own, and always the same. Where cargo or the Rust sources are missing it says so and ends well.
set -euo pipefail
. "$(dirname "$0")/here.sh"

count=13000
commit=$(git rev-parse HEAD 2> /dev/null || echo 00000000)
from=$((16#${commit:0:8} * count))
cargo build --release --offline --quiet --bin compare
echo "reference: seeds $from to $((from + count - 1)), of commit ${commit:0:8}"
target/release/compare --states --seeds $from..$((from + count)) "${1:-../crates/replay/out/replay}"
