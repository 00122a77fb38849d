# What the benchmarks of libraries share, who read this file by `.`: each is a program over a copy of the crates, so that it needs no
# line in crates.txt, and the same in plain Rust beside it. The copy goes when the benchmark ends.
set -e
top=$(cd "$(dirname "$0")/.." && pwd)
copy=$(mktemp -d)
trap 'rm -rf "$copy"' EXIT

# Proves, builds and runs bench/NAME.txt as a crate over these libraries: run_over_copy NAME "LIBRARY .."
run_over_copy() {
    cp "$top/crates.txt" "$copy/"
    [ ! -f "$top/HANDLES" ] || cp "$top/HANDLES" "$copy/"
    mkdir "$copy/crates"
    for crate in "$top"/crates/*/; do
        name=$(basename "$crate")
        mkdir "$copy/crates/$name"
        for part in src specs proofs; do
            [ ! -d "$crate$part" ] || cp -r "$crate$part" "$copy/crates/$name/"
        done
    done
    echo "$1_bench: $2" >> "$copy/crates.txt"
    mkdir -p "$copy/crates/$1_bench/src"
    cp "$top/bench/$1.txt" "$copy/crates/$1_bench/src/main.rt"
    (cd "$copy/crates/$1_bench" && ${RT:-rt} run)
}

# Builds bench/NAME.rs and runs it, where rustc is there: run_plain NAME
run_plain() {
    rustc=$(command -v rustc || echo "$HOME/.cargo/bin/rustc")
    if [ -x "$rustc" ]; then
        "$rustc" -O --edition 2024 -o "$copy/plain" "$top/bench/$1.rs"
        "$copy/plain"
    else
        echo 'no rustc here: nothing of plain Rust' >&2
    fi
}
