#!/bin/sh
# sh examples/pictures/speed.sh PICTURE LINE STOCK: speed over distance, with the limits, the braking list and the
# gradients; for a train that stalls a red line where it does. Where rtime refuses a file, it prints the answer and
# ends with the same exit status, and no picture is made. RTIME is the program (./rtime).
[ $# -eq 3 ] || { sed -n '2,4s/^# //p' "$0"; exit 2; }
here=$(dirname "$0")
rtime=${RTIME:-./rtime}
texts=$(mktemp -d) || exit
trap 'rm -r "$texts"' EXIT
stop() { status=$?; echo "exit status $status"; cat "$1"; exit $status; }

"$rtime" stock "$3" > "$texts/stock" || stop "$texts/stock"
length=$(awk 'NR == 1 { print $3 }' "$texts/stock") || exit
top=$(awk 'NR == 1 { print $4 }' "$texts/stock") || exit
"$rtime" caps "$2" "$length" "$top" > "$texts/caps" || stop "$texts/caps"
"$rtime" brakes "$2" "$3" > "$texts/brakes" || stop "$texts/brakes"
echo 0 0 > "$texts/stall"
"$rtime" envelope "$2" "$3" > "$texts/envelope"
case $? in
0) ;;
6) awk '{ print $2, 1 }' "$texts/envelope" > "$texts/stall"; cat "$texts/envelope"; echo 0 0 > "$texts/envelope" ;;
*) stop "$texts/envelope" ;;
esac
# Each text has a first line that draws nothing, so that none is empty: gnuplot warns of an empty one, or ends.
awk -F, 'BEGIN { print 0, "\"\"" } { gsub(/"/, "") } $1 == "point" { print $2, "\"" $3 "\"" }' "$2" > "$texts/points" || exit
awk -F, 'BEGIN { print 0, 0 } { gsub(/"/, "") } $1 == "gradient" { print $2, $4 / 10; print $3, 0 }' "$2" \
    > "$texts/gradients" || exit
length=$(awk 'END { print $1 / 1000 }' "$texts/brakes") || exit
gnuplot -c "$here/speed.gp" "$texts" "$1" "$length" "$top"
