#!/bin/sh
# Prints how many nanoseconds a look-up of a key that is there, one of a key that isn't, an update, and a delete with an
# insert take in hashes of several sizes, half full and full, and beside them the same of bench/maps.rs, the HashMap of
# plain Rust, where rustc is there. It stands outside the gate: it proves and builds the program of bench/maps.txt over a
# copy of the crates, and runs both, one after the other.
. "$(dirname "$0")/copied.sh"
run_over_copy maps 'map_store lists anyhow' > "$copy/store.out" || { cat "$copy/store.out" >&2; exit 1; }
run_plain maps > "$copy/plain.out"

# The number at this place of the line that begins with these two numbers.
number() {
    awk -v slots="$2" -v keys="$3" -v place="$4" '$1 == slots && $2 == keys { print $place }' "$copy/$1.out"
}

printf '%s, %s processors\n\n' "$(date +%F)" "$(nproc)"
printf '| slots | keys | look-up | in Rust | miss | in Rust | update | in Rust | delete and put | in Rust |\n'
printf '|--:|--:|--:|--:|--:|--:|--:|--:|--:|--:|\n'
awk 'NF == 6 { print $1, $2 }' "$copy/store.out" | while read -r slots keys; do
    printf '| %s | %s |' "$slots" "$keys"
    for place in 3 4 5 6; do
        printf ' %s | %s |' "$(number store "$slots" "$keys" "$place")" "$(number plain "$slots" "$keys" "$place")"
    done
    printf '\n'
done
