#!/usr/bin/env bash
# Has the reports of each monitor of the program, of the placed and of the counted plan, and changed
# ones, judged by the program and by the second reader, tools/recheck.py, without and with lines of
# blocks that keep 64 bits. Fails where they differ, or where a whole report isn't accepted.
# Then each state that `explain` shows of the monitor is checked by tools/reasons.py.
cd "$(dirname "$0")/../crates/expresso_cli" || exit 1
program=$PWD/out/expresso_cli
reader=$PWD/../../tools/recheck.py
reasons=$PWD/../../tools/reasons.py
made=$(mktemp -d) || exit 1
trap 'rm -rf "$made"' EXIT

# judge STATUS REPORT: both give the same line and the same status, which is STATUS unless that is -
judge() {
    local ours theirs
    ours=$("$program" recheck "$made/monitor" "$2"; echo "status $?")
    theirs=$("$reader" "$made/monitor" "$2"; echo "status $?")
    if [ "$ours" != "$theirs" ] || { [ "$1" != - ] && [ "${ours##* }" != "$1" ]; }; then
        printf '%s\n' "$monitor, ${2##*/} report:" "$ours" "the second reader:" "$theirs"
        exit 1
    fi
}

# reports [--count]: the report of the monitor, and changed ones
reports() {
    "$program" report "$monitor" "$@" >"$made/whole" || exit 1
    sed '$d' "$made/whole" >"$made/shorter"
    sed '$s/: .*/: split 0/' "$made/whole" >"$made/emptied"
    sed 's/clash 0 /clash 1 /; s/chain 1 /chain 1 1/' "$made/whole" >"$made/shifted"
    sed 's/^\(proof \(counts\|gives\|first\) .*: \).*/\1split 1 split 0/' "$made/whole" >"$made/unanswered"
    sed 's/^\(proof .*: \)\(.*\)/\1cases 1 0 -2 3 below \2 above \2/' "$made/whole" >"$made/cased"
    sed 's/ above .*//' "$made/cased" >"$made/halved"
    judge 0 "$made/whole"
    judge 1 "$made/shorter"
    judge - "$made/emptied"
    judge - "$made/shifted"
    judge - "$made/unanswered"
    judge - "$made/cased"
    judge - "$made/halved"
}

# fits [--count]: the report with lines of blocks that keep 64 bits, and changed ones
fits() {
    "$program" report "$monitor" --fits "$@" >"$made/fitting" || exit 1
    sed '$d' "$made/fitting" >"$made/fewer"
    sed '$p' "$made/fitting" >"$made/doubled"
    sed 's/^\(proof fits .*: \).*/\1split 1 split 0/' "$made/fitting" >"$made/unfitted"
    sed 's/^\(proof fits .*: split \)2 /\11 /' "$made/fitting" >"$made/malformed"
    judge 0 "$made/fitting"
    judge - "$made/fewer"
    judge 1 "$made/doubled"
    judge - "$made/unfitted"
    judge - "$made/malformed"
}

# explain TEXT [PLACED]: the states that are shown hold, and with a line missing the text is refused
explain() {
    sed '$d' "$1" >"$made/shorter"
    if ! "$reasons" "$made/monitor" "$@" >>"$made/states"; then
        echo "$monitor: what explain shows is refused by the second reader"
        exit 1
    elif "$reasons" "$made/monitor" "$made/shorter" "${@:2}" >"$made/refused"; then
        echo "$monitor: the second reader takes reasons of which one is missing"
        exit 1
    fi
}

# leaves [--count PLACED]: the states that are shown of blocks that may leave 64 bits hold
leaves() {
    "$program" explain --fits "$monitor" ${1:+"$1"} >"$made/leaving" || exit 1
    if ! "$reasons" "$made/monitor" "$made/leaving" "${@:2}" >>"$made/states"; then
        echo "$monitor: what explain --fits shows is refused by the second reader"
        exit 1
    fi
}

count=0
for monitor in data/*.mon data/derived/*.mon; do
    "$program" check "$monitor" >"$made/monitor" || exit 1
    reports
    reports --count
    fits
    fits --count
    "$program" explain "$monitor" >"$made/explained" || exit 1
    explain "$made/explained"
    "$program" explain --count "$monitor" >"$made/counted" || exit 1
    explain "$made/counted" "$made/explained"
    leaves
    leaves --count "$made/explained"
    count=$((count + 1))
done
echo "both readers agree on the reports of $count monitors; of their reasons" \
    "$(awk '{ shown += $1; undecided += $3 } END { print shown " are shown and " undecided " not decided" }' "$made/states")"
