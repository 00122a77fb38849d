#!/bin/sh
# Runs the program on each script of this folder and compares what it prints with the file beside the script. The trace of the run
# has to replay to the same, and with another verdict in its third line to be refused there.
# usage: examples/check.sh [PROGRAM]
here=$(dirname "$0")
program=$(realpath "${1:-$here/../crates/xdptool/out/xdptool}")
[ -x "$program" ] || { echo "$program isn't there: build it by 'make program'" >&2; exit 2; }
cd "$here" || exit 2
folder=$(mktemp -d)
trap 'rm -rf "$folder"' EXIT
failed=0
# What is wanted, what was done, and what that printed.
compare() {
    if diff -u "$1" "$3"; then
        echo "$2: as expected"
    else
        failed=1
    fi
}
cat > "$folder/differs.out" <<'END'
xdptool: trace line 3 differs
END
for script in *.xdp; do
    name=${script%.xdp}
    "$program" --trace "$folder/trace" "$script" > "$folder/out"
    compare "$name.out" "$name, run" "$folder/out"
    "$program" --replay "$folder/trace" "$script" > "$folder/out"
    compare "$name.out" "$name, replayed" "$folder/out"
    sed '3s/ [a-z]* / none /' "$folder/trace" > "$folder/other"
    "$program" --replay "$folder/other" "$script" > "$folder/out" 2>&1
    compare "$folder/differs.out" "$name, with another verdict" "$folder/out"
done
exit $failed
