#!/usr/bin/env bash
# Times bench/core.rs: archives that crates/archive_bench writes and accesses whole, beside the same in plain Rust.
exec "$(dirname "$0")/loops.sh" core
