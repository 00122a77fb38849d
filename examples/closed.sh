#!/bin/sh
# Runs the program with standard streams closed: a closed out is a fault, and no file of the run gets the number of a stream.
# usage: examples/closed.sh [PROGRAM]
here=$(dirname "$0")
program=${1:-$here/../crates/xdptool/out/xdptool}
[ -x "$program" ] || { echo "$program isn't there: build it by 'make program'" >&2; exit 2; }
script=$here/change-under-traffic.xdp
folder=$(mktemp -d)
trap 'rm -rf "$folder"' EXIT
failed=0
# The name of a case, the status that is wanted and the one that came, and the trace that is wanted.
compare() {
    if [ "$2" = "$3" ] && diff -u "$4" "$folder/trace"; then
        echo "$1: as expected"
    else
        echo "$1: status $3, and $2 is wanted" >&2
        failed=1
    fi
    rm -f "$folder/trace"
}
echo "xdptrace 1" > "$folder/begun"
"$program" --trace "$folder/whole" "$script" > "$folder/out"
status=$?
"$program" --trace "$folder/trace" "$script" >&- 2> "$folder/err"
compare "out closed" 3 $? "$folder/begun"
grep -qx "xdptool: fault" "$folder/err" || { echo "out closed: err doesn't say so" >&2; failed=1; }
"$program" --trace "$folder/trace" "$script" <&- >&- 2>&-
compare "all closed" 3 $? "$folder/begun"
"$program" --trace "$folder/trace" "$script" <&- 2>&- > "$folder/again"
compare "in and err closed" $status $? "$folder/whole"
cmp "$folder/out" "$folder/again" || failed=1
exit $failed
