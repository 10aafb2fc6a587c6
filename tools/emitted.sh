#!/usr/bin/env bash
# Has the program print the module of each monitor of its data/ and of bench/emitted/. Fails where one isn't the module
# that is kept in bench/emitted/, or not what the second reader, tools/emitted.py, prints.
#
# Where rustc is installed each module is compiled, without a warning, and called from threads by the program of
# bench/threads/ that has its name: that program checks the last state, and fails where it hasn't ended in a minute. So
# does times.rs there, whose calls have times.
cd "$(dirname "$0")/.." || exit 1
program=$PWD/crates/expresso_cli/out/expresso_cli
made=$(mktemp -d) || exit 1
trap 'rm -rf "$made"' EXIT

fail() {
    echo "$*"
    exit 1
}

has() {
    command -v "$1" >/dev/null
}

# judge MONITOR NAME: both printers print the module that is kept
judge() {
    "$program" emit "$1" >"$made/$2.rs" || fail "$1: no module"
    cmp "$made/$2.rs" "bench/emitted/$2.rs" || fail "$1: not the module that is kept"
    "$program" check "$1" >"$made/monitor" || fail "$1: no canonical form"
    "$program" compile --count "$1" >"$made/plan" || fail "$1: no plan"
    mapfile -t whole < <(tools/fits.py "$made/monitor" "$made/plan")
    tools/emitted.py "$made/monitor" "$made/plan" "$1" "${whole[@]}" | cmp - "$made/$2.rs" || fail "$1: the second reader prints another"
}

# compile COMPILER EDITION ..: a module without a warning, with a doc on each item
compile() {
    "$1" -D warnings -W missing_docs -W unused_qualifications "${@:3}" --edition "$2" --crate-type lib \
        --crate-name module -o "$made/module" "$made/lib.rs"
}

# build NAME: the module compiles, and its threads come to their end
build() {
    local module=bench/emitted/$1.rs
    printf '//! A module.\n\n/// It.\n#[path = "%s"]\npub mod module;\n' "$PWD/$module" >"$made/lib.rs"
    for edition in 2021 2024; do
        compile rustc "$edition" || fail "$1: rustc"
        if has clippy-driver; then
            compile clippy-driver "$edition" -W clippy::pedantic || fail "$1: clippy"
        fi
    done
    if has rustfmt; then
        rustfmt --edition 2021 --check "$module" || fail "$1: rustfmt"
    fi
    threads "$1"
}

# threads NAME: a program of bench/threads/ comes to its end
threads() {
    rustc -O -D warnings --edition 2021 -o "$made/threads" "bench/threads/$1.rs" || fail "$1: its program"
    timeout 60 "$made/threads" || fail "$1: its threads"
}

names=()
for monitor in crates/expresso_cli/data/*.mon crates/expresso_cli/data/derived/*.mon bench/emitted/*.mon; do
    name=$(basename "$monitor" .mon)
    case $monitor in */derived/*) name=derived_$name ;; esac
    judge "$monitor" "$name"
    names+=("$name")
done
echo "the modules of ${#names[@]} monitors are those that are kept, and the second reader prints the same"

if has rustc; then
    for name in "${names[@]}"; do
        build "$name"
    done
    threads times
    echo "they compile, and threads that call them come to their end"
else
    echo "rustc is not installed here, so they were not compiled"
fi
