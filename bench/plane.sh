#!/bin/sh
# Prints a table of how often ports look at a plane while changes are published, and how long a publication takes, and
# beside it the same of bench/plane.rs, a Mutex in plain Rust, where rustc is there. It stands outside the gate: it proves
# and builds the program of bench/plane.txt over a copy of the crates, and runs both, one after the other.
. "$(dirname "$0")/copied.sh"
run_over_copy plane 'dispatch_plane xdp_state filter_rules anyhow' > "$copy/plane.out" || { cat "$copy/plane.out" >&2; exit 1; }
run_plain plane > "$copy/mutex.out"

# The number at this place of the line that begins with these two words.
number() {
    awk -v kind="$2" -v of="$3" -v place="$4" '$1 == kind && $2 == of { print $place }' "$copy/$1.out"
}

# A row of the table, with what is counted and the place of its number.
row() {
    printf '| %-53s | %16s | %23s |\n' "$1" "$(number plane "$2" "$3" "$4")" "$(number mutex "$2" "$3" "$4")"
}

rows_of_threads() {
    for threads in 1 2 3; do
        row "$1, $threads looking" looking "$threads" "$2"
    done
}

printf '%s, %s processors\n\n' "$(date +%F)" "$(nproc)"
printf '| %-53s | %16s | %23s |\n' '' 'published copies' 'a Mutex in plain Rust'
printf '|---|--:|--:|\n'
rows_of_threads 'thousand looks a second beside a publisher' 3
rows_of_threads 'ns for a publication' 4
for rules in 0 100 4096; do
    row "ns for a publication over $rules rules, none looking" publishing "$rules" 3
done
