#!/bin/sh
# Prints how many nanoseconds a filter's verdict on a frame takes, all headers asked for, by the number of its rows and their
# kind, where no row names the frame. It stands outside the gate: it proves and builds the program of bench/rules.txt over a
# copy of the crates, and runs it.
. "$(dirname "$0")/copied.sh"
run_over_copy rules 'filter_rules net_headers xio anyhow' > "$copy/rules.out" || { cat "$copy/rules.out" >&2; exit 1; }

printf '%s, %s processors\n\n' "$(date +%F)" "$(nproc)"
printf '| rows | ports | IPv4 | IPv6 | Ethernet |\n'
printf '|--:|--:|--:|--:|--:|\n'
awk 'NF == 5 { printf "| %s | %s | %s | %s | %s |\n", $1, $2, $3, $4, $5 }' "$copy/rules.out"
