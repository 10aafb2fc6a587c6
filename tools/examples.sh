#!/usr/bin/env bash
# Has the program print the module of each monitor of examples/, which must be the one that is kept there. Then, where
# cargo is installed, each project is built without a warning, tested and run, with no network: with the modules that
# are kept, and with those that the program prints. Fails where one of them does, or prints what examples/README.md
# hasn't, or where README.md shows another examples/queue.rs or has a command that doesn't run it.
cd "$(dirname "$0")/.." || exit 1
program=$PWD/crates/expresso_cli/out/expresso_cli
made=$(mktemp -d) || exit 1
trap 'rm -rf "$made"' EXIT

fail() {
    echo "$*"
    exit 1
}

has() {
    command -v "$1" >/dev/null
}

# without_expresso: the path, but for the folders that have an `expresso`
without_expresso() {
    local folder IFS=:
    for folder in $PATH; do
        [ -x "$folder/expresso" ] || printf '%s:' "$folder"
    done
}

# build PROJECT: no warning, its tests pass, and its program prints lines that stand in examples/README.md
build() {
    (
        cd "examples/$1" || exit 1
        cargo test --offline --locked --quiet >"$made/tests" 2>&1 || fail "$1: $(cat "$made/tests")"
        cargo run --offline --locked --quiet >"$made/lines" || fail "$1: its program"
        if has cargo-clippy; then
            cargo clippy --offline --locked --quiet --all-targets -- -D warnings || fail "$1: clippy"
        fi
        if has cargo-fmt; then
            cargo fmt --check || fail "$1: rustfmt"
        fi
    ) || exit 1
    [ -s "$made/lines" ] || fail "$1: its program prints nothing"
    while IFS= read -r line; do
        grep -qxF -- "$line" examples/README.md || fail "$1 prints a line that examples/README.md hasn't: $line"
    done <"$made/lines"
}

cmp examples/jobs/build.rs examples/cache/build.rs || fail "the projects are built in two ways"
cmp examples/jobs/tests/common/mod.rs examples/cache/tests/common/mod.rs || fail "their tests end in two ways"
if [ -x "$program" ]; then
    for monitor in examples/*/monitors/*.mon; do
        "$program" emit "$monitor" >"$made/module" || fail "$monitor: $(cat "$made/module")"
        cmp "$made/module" "${monitor%.mon}.rs" || fail "$monitor: not the module that is kept"
    done
    echo "the modules of examples/ are those that are kept"
else
    echo "no program was left here, so the modules of examples/ were not printed anew"
fi
if ! has cargo; then
    echo "cargo is not installed here, so examples/ was not built"
    exit
fi
sed -n '/^```rust$/,/^```$/p' README.md | sed '1d;$d' | cmp - examples/queue.rs || fail "README.md shows another queue.rs"
if has rustfmt; then
    rustfmt --edition 2021 --check examples/queue.rs || fail "queue.rs: rustfmt"
fi
queue=$(grep -m 1 '^rustc .* examples/queue.rs && ' README.md) || fail "README.md has no command that runs queue.rs"
queue=$(bash -c "${queue//\/tmp/$made}" 2>&1) || fail "queue.rs: $queue"
grep -qF "println!(\"$queue\")" README.md || fail "queue.rs prints $queue"
echo "README.md's queue prints: $queue"
export RUSTFLAGS="-D warnings" CARGO_TARGET_DIR=$made/target
for project in jobs cache; do
    (unset EXPRESSO && PATH=$(without_expresso) && build "$project") || exit 1
    if [ -x "$program" ]; then
        (export EXPRESSO=$program && build "$project") || exit 1
    fi
done
echo "the projects of examples/ build without a warning, pass their tests and print what they are to print"
