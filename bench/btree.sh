#!/usr/bin/env bash
# Times bench/btree.rs: archived maps that crates/archive_bench walks and searches, beside the same in plain Rust and
# Rust's own maps.
exec "$(dirname "$0")/loops.sh" btree
