#!/bin/sh
# sh examples/pictures/costs.sh PICTURE LINE STOCK PLAN POINT [EVERY METRES KMH]: what a slow order of METRES m (300) at
# KMH km/h (30) costs at the point of the name POINT by where it lies, each EVERY m (500); red where the train doesn't
# get there. Where rtime refuses a file, or knows no such point, it prints the answer and ends with the same exit status
# or with 1, and no picture is made. RTIME is the program (./rtime).
[ $# -eq 5 ] || [ $# -eq 8 ] || { sed -n '2,5s/^# //p' "$0"; exit 2; }
here=$(dirname "$0")
rtime=${RTIME:-./rtime}
every=${6:-500} metres=${7:-300} kmh=${8:-30}
texts=$(mktemp -d) || exit
trap 'rm -r "$texts"' EXIT
stop() { status=$?; echo "exit status $status"; cat "$1"; exit $status; }

"$rtime" brakes "$2" "$3" > "$texts/brakes" || stop "$texts/brakes"
awk -v every="$every" -v metres="$metres" -v kmh="$kmh" -v at="time $5" '
    END {
        print at
        for (start = 0; start + metres <= $1; start += every) {
            print "put order", start, start + metres, kmh
            print at
            print "take order"
        }
    }' "$texts/brakes" > "$texts/talk" || exit
"$rtime" session "$2" "$3" "$4" < "$texts/talk" > "$texts/replies" || stop "$texts/replies"
paste -d '|' "$texts/talk" "$texts/replies" > "$texts/both" || exit
# KM SECONDS for each order, and KM none where the train doesn't get there
awk -F '|' '{ split($2, words, " ") }
    NR == 1 { free = words[3]; if (words[1] != "time") { print $1 ": " $2; exit 1 } next }
    words[1] == "error" { print $1 ": " $2; exit 1 }
    $1 ~ /^put/ { split($1, order, " "); next }
    $1 ~ /^time/ { print order[3] / 1000, words[1] == "time" ? (words[3] - free) / 1e9 : "none" }' \
    "$texts/both" > "$texts/costs" || stop "$texts/costs"
gnuplot -c "$here/costs.gp" "$texts/costs" "$1" "$metres m at $kmh km/h, $(basename "$3" .toml): cost at $5, s"
