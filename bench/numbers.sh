#!/usr/bin/env bash
# Times bench/numbers.rs: the loops of crates/archive_bench beside the same loops in plain Rust.
exec "$(dirname "$0")/loops.sh" numbers
