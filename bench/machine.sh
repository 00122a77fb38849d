#!/bin/sh
# Prints how fast the machine runs, and beside it the same rows of bench/plain.rs, an interpreter in plain safe Rust,
# where rustc is there. It stands outside the gate: it proves and builds the program of bench/machine.txt over a copy of
# the crates, and runs both, one after the other.
. "$(dirname "$0")/copied.sh"
run_over_copy machine 'bpf_machine map_store bpf_insn lists anyhow'
run_plain plain
