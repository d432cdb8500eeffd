#!/usr/bin/env bash
# Proves and builds the program, tells on the error output how far that is (RTIME_QUIET=1 keeps that back),
# and runs it with the words given. It ends with 69 where the prover isn't on the path, and with 70 where it
# can't prove or build. ./rtime calls it where the program isn't there or is older than its sources.
set -euo pipefail

top=${BASH_SOURCE[0]%/*}
out=$top/crates/rtime/out
program=$out/rtime
unfinished=$out/unfinished # stands while the program is built, and after a build that was killed

is_quiet() { [ "${RTIME_QUIET:-}" = 1 ]; }

say() { is_quiet || printf 'rtime: %s\n' "$1" >&2 || true; }

stop() {
    printf 'rtime: %s\n' "$2" >&2
    exit "$1"
}

# Shows a step: on a terminal in place of the last one, else a line for each crate that is done.
show() {
    if is_quiet; then
        return
    elif [ -t 2 ]; then
        printf '\r%-78.78s' "${2:+rtime: $2}" >&2
    elif [ "$1" = crate ]; then
        say "$2"
    fi
}

# Copies what `rt run` writes to the log, and shows the crates of crates.txt as each is done.
follow() {
    trap '' TERM # it ends when all that write to it have ended
    local line name left count=0 all
    left=" $(cut -d: -f1 "$top/crates.txt" | tr '\n' ' ')"
    all=$(wc -w <<<"$left")
    while IFS= read -r line || [ -n "$line" ]; do
        printf '%s\n' "$line"
        if [[ $line =~ ^(crate|library)\ ([^ ]+):\ modules ]]; then
            name=${BASH_REMATCH[2]}
            [[ $left == *" $name "* ]] || continue
            left=${left/" $name "/ }
            count=$((count + 1))
            show crate "crate $count of $all: $name is proved"
        elif [[ $line =~ ^[a-z]+\ ([^ ]+):\ proved ]]; then
            show part "crate $((count + 1)) of $all: ${BASH_REMATCH[1]}"
        fi
    done >"$log"
    [ ! -t 2 ] || show end ""
}

# Takes back a build that was interrupted or failed, with all that it started.
undo() {
    kill %1 && wait || true
    rm -f "$log" "$program" "$unfinished"
} 2>/dev/null

prove() {
    log=$(mktemp 2>/dev/null) ||
        stop 70 "no file can be made for the log: see whether \$TMPDIR is full, and call again"
    trap undo EXIT # which bash runs where a signal ends it too
    : >"$unfinished"
    set -m # so that the job is a group of processes, which `undo` ends as a whole
    (CDPATH='' cd "$top/crates/rtime" && exec rt run) </dev/null 2>&1 | follow &
    set +m
    wait $! || true
    # Without words the program writes `usage`: so it was built, and runs.
    if ! grep -qx usage "$log" || ! [ -x "$program" ]; then
        cat "$log" >&2
        stop 70 "the program can't be proved and built: above stands why; mend it, and call again"
    fi
    touch -r "$unfinished" "$program" # a source that was changed meanwhile is newer
    rm -f "$log" "$unfinished"
    trap - EXIT
}

command -v rt >/dev/null ||
    stop 69 "rt isn't on the path: add the folder bin of the Rattle kit to PATH, and call again"
{ mkdir -p "$out" && [ -w "$out" ]; } 2>/dev/null ||
    stop 70 "nothing can be written to $out: see who may, and call again"
exec {lock}>"$out/lock"
if command -v flock >/dev/null && ! flock -n "$lock"; then
    say "another call is proving the program: this one waits for it"
    flock "$lock"
    exec {lock}>&-
    exec "$top/rtime" "$@" # which looks again
fi
say "proving and building the program, once: this takes up to half an hour"
prove
exec {lock}>&-
exec "$program" "$@"
