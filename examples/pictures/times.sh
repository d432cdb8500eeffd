#!/bin/sh
# sh examples/pictures/times.sh PICTURE LINE STOCK PLAN [STOCK PLAN ..]: time over distance for each train by its plan.
# Where rtime has no timetable for one of them, it prints the answer and ends with the same exit status, and no picture
# is made. RTIME is the program (./rtime).
[ $# -ge 4 ] && [ $(($# % 2)) -eq 0 ] || { sed -n '2,4s/^# //p' "$0"; exit 2; }
here=$(dirname "$0")
rtime=${RTIME:-./rtime}
texts=$(mktemp -d) || exit
trap 'rm -r "$texts"' EXIT
stop() { status=$?; echo "exit status $status"; cat "$1"; exit $status; }

picture=$1 line=$2
shift 2
: > "$texts/trains"
while [ $# -gt 0 ]
do
    "$rtime" plan "$line" "$1" "$2" --print timetable > "$texts/rows" || stop "$texts/rows"
    # A train is a block: its title, then KM LOW HIGH in seconds, for each arrival and each departure.
    [ ! -s "$texts/trains" ] || printf '\n\n' >> "$texts/trains"
    echo "\"$(basename "$1" .toml), $(basename "$2" .csv)\" - -" >> "$texts/trains"
    awk '{ printf "%.3f %.9f %.9f\n%.3f %.9f %.9f\n", $1 / 1000, $3 / 1e9, $4 / 1e9, $1 / 1000, $5 / 1e9, $6 / 1e9 }' \
        "$texts/rows" >> "$texts/trains" || exit
    shift 2
done
awk -F, '{ gsub(/"/, "") } $1 == "point" { gsub(/\047/, "\047\047"); printf "set x2tics add (\047%s\047 %.3f)\n", $3, $2 / 1000 }' \
    "$line" > "$texts/points.gp" || exit
gnuplot -c "$here/times.gp" "$texts" "$picture"
