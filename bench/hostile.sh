#!/bin/bash
# Prints what it takes to load object files that bench/hostile.py makes to be dear, a row for each: how the load ended, and by the
# size of the file processor seconds and the most MB in memory; "-" where a load took more than SECONDS_EACH (60). It stands outside the
# gate: it proves and builds the program of bench/hostile.txt over a copy of the crates. Arguments are sizes in MiB; with none they
# are 1, 4 and 16. It needs python3 and GNU time.
. "$(dirname "$0")/copied.sh"
[ $# -gt 0 ] || set -- 1 4 16
run_over_copy hostile 'object_load anyhow' > "$copy/built.out" || { cat "$copy/built.out" >&2; exit 1; }
mkdir "$copy/files"
python3 "$top/bench/hostile.py" "$copy/files" "$@"

# Processor seconds and MB of the load of a file; how it ended stands in ended.out.
cost() {
    timeout "${SECONDS_EACH:-60}" /usr/bin/time -f '%U %S %M' -o "$copy/cost" \
        "$copy/crates/hostile_bench/out/hostile_bench" "$1" > "$copy/ended.out" 2>&1 || { printf ' - | - |'; return; }
    awk 'NF == 3 { printf " %.2f | %.0f |", $1 + $2, $3 / 1024 }' "$copy/cost"
}

printf '%s, %s processors\n\n' "$(date +%F)" "$(nproc)"
printf '| file |'; printf ' %s MiB | MB |' "$@"; printf ' ended |\n|---|'; printf -- '--:|--:|%.0s' "$@"; printf -- '---|\n'
for file in "$copy"/files/*-"$1".o; do
    name=$(basename "$file" "-$1.o")
    printf '| %s |' "$name"
    for mib in "$@"; do
        cost "$copy/files/$name-$mib.o"
    done
    printf ' %s |\n' "$(cat "$copy/ended.out")"
done
