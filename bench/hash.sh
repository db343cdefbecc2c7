#!/usr/bin/env bash
# Times bench/hash.rs: archived maps that crates/archive_bench writes, walks and searches, beside the same in plain Rust
# and Rust's own maps.
exec "$(dirname "$0")/loops.sh" hash
