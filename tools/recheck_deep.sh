#!/usr/bin/env bash
# Has each build of the program check reports whose certificates nest deep, within 2 MB of stack.
# Fails where a line or a status is not the one that is due.
cd "$(dirname "$0")/../crates/expresso_cli" || exit 1
made=$(mktemp -d) || exit 1
trap 'rm -rf "$made"' EXIT

# copies COUNT TEXT: the text so often
copies() {
    yes "$2" | head -n "$1" | tr -d '\n'
}

# judge STATUS LINE: what is said of the monitor and the report
judge() {
    local said
    said=$(ulimit -s 2048 && "$program" recheck "$made/monitor" "$made/report"; echo "status $?")
    if [ "$said" != "$2"$'\n'"status $1" ]; then
        printf '%s\n' "${program##*/}, of a deep report:" "$said" "where it must be:" "$2" "status $1"
        exit 1
    fi
}

# nest COUNT TEXT: the report of the monitor, with the text, of a split or of cases, so often before
# its first certificate
nest() {
    local first
    first=$(grep -n -m 1 '^proof ' "$made/whole" | cut -d : -f 1)
    {
        sed -n "1,$((first - 1))p" "$made/whole"
        sed -n "${first}p" "$made/whole" | sed 's/: .*/: /' | tr -d '\n'
        copies "$1" "$2"
        sed -n "${first}p" "$made/whole" | sed 's/.*: //'
        sed -n "$((first + 1)),\$p" "$made/whole"
    } >"$made/report"
}

for program in "$PWD/out/expresso_cli" "$PWD/out/expresso_cli.by-rattle"; do
    if [ ! -x "$program" ]; then
        echo "${program##*/} was not left here"
        exit 1
    fi
    # What no split of the claim's query matches is open, however deep.
    "$program" check data/lock.mon >"$made/monitor" || exit 1
    "$program" report data/lock.mon >"$made/whole" || exit 1
    nest 200000 'split 1 '
    judge 1 "rejected: line $(grep -n -m 1 '^proof ' "$made/whole" | cut -d : -f 1)"
    # Each any of the guard is split in two, of which the first part is closed at once. No prover
    # makes such a report: the guard has too many cubes.
    echo "monitor Deep { bool f = true; bool g = true; method m() waituntil (f && !f$(copies 4200 '&&(f||g)')) { } }" >"$made/deep"
    "$program" check "$made/deep" >"$made/monitor" || exit 1
    {
        "$program" compile "$made/monitor" | sed 's/^block m: .*/block m: none/'
        echo "proof none m 1: clash 0 1"
    } >"$made/whole"
    for text in 'split 2 clash 0 1 ' 'cases 1 0 1 0 below clash 0 1 above '; do
        nest 4200 "$text"
        judge 0 'accepted 1 claims'
        if [ "$(../../tools/recheck.py "$made/monitor" "$made/report")" != 'accepted 1 claims' ]; then
            echo "the second reader does not accept the deep report"
            exit 1
        fi
    done
done
echo "reports with certificates of 4,200 and 200,000 levels are checked within 2 MB of stack"
