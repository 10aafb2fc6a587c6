#!/usr/bin/env bash
# Checks the manual, and tools/install.sh on a copy of the checkout: with an `rt` that proves
# nothing, since `rt ci` does, and leaves a program that prints its usage and version alone. Fails where an
# installed file is missing or wrong, where a second call does something, or where a call that fails
# leaves anything below its prefix.
#
# Then the manual page is rendered where groff, man or mandoc is installed, and the completions are
# tried in bash, zsh and fish, where they are installed.
cd "$(dirname "$0")/.." || exit 1
program=$PWD/crates/expresso_cli/out/expresso_cli
made=$(mktemp -d) || exit 1
trap 'rm -rf "$made"' EXIT
export HOME=$made/home XDG_CACHE_HOME=$made/cache RT=$made/rt MADE=$made
unset XDG_DATA_HOME

fail() {
    echo "$*"
    exit 1
}

has() {
    command -v "$1" >/dev/null
}

# holds WHAT COMMAND..: the command succeeds
holds() {
    local what=$1
    shift
    "$@" >"$made/said" 2>&1 || fail "$what: $(cat "$made/said")"
}

# breaks WHAT TEXT COMMAND..: the command fails and says this
breaks() {
    local what=$1 text=$2
    shift 2
    if "$@" >"$made/said" 2>&1; then fail "$what: it went through: $(cat "$made/said")"; fi
    grep -qF -- "$text" "$made/said" || fail "$what: it doesn't say '$text', but $(cat "$made/said")"
}

# same WHAT: what stands below the prefix is as it was when `picture` was called
picture() {
    (cd "$made" && find prefix -printf '%p %m %T@\n' 2>/dev/null | LC_ALL=C sort)
}
same() {
    [ "$(picture)" = "$before" ] || fail "$1: something is left below the prefix: $(picture)"
}

[ -x "$program" ] || program=''
holds "the manual" tools/manual.py check ${program:+"$program"}

# An `rt` that proves nothing. $MADE/fails names what it fails in, and $MADE/calls counts the crates
# that it was given.
cat >"$RT" <<'STUB'
#!/usr/bin/env bash
fails=$(cat "$MADE/fails" 2>/dev/null)
case $1 in
    version) echo "a kit for tests" ;;
    ci)
        while read -r line; do
            crate=${line%%[: ]*}
            echo x >>"$MADE/calls"
            [ "$crate" != "$fails" ] || { echo "rt: $crate NOT PROVED"; exit 1; }
            echo "== $crate"
            case $crate in
                lang_*) echo "rt: $crate is kept: an earlier run proved the same files" ;;
                *) echo "rt: $crate proved" ;;
            esac
            mkdir -p "crates/$crate/out"
        done <crates.txt
        [ "$fails" != link ] || exit 0
        {
            echo '#!/bin/sh'
            echo "[ \"\$1\" != --version ] || { echo 'expresso $(cat "$MADE/version")'; exit; }"
            echo 'cat <<END'
            cat "$MADE/usage"
            echo END
            echo 'exit 2'
        } >crates/expresso_cli/out/expresso_cli
        chmod +x crates/expresso_cli/out/expresso_cli
        ;;
esac
STUB
chmod +x "$RT"
{ echo usage:; sed -n '/^% usage$/,/^$/p' tools/manual.txt | sed '1d;$d'; } >"$made/usage"
sed -n 's/^VERSION = codes "\(.*\)"$/\1/p' crates/emit_module/specs/Fixed.antt >"$made/version"
mkdir "$made/home" "$made/copy"
tar -c --exclude=out --exclude=.git --exclude=proofs . | tar -x -C "$made/copy" || exit 1
installer=$made/copy/tools/install.sh
cd "$made" || exit 1

before=$(picture)
breaks "no rt" "there is no /nowhere/rt on the path" env RT=/nowhere/rt "$installer" prefix
same "no rt"
: >"$made/file"
breaks "another option" "no such option: --nope" "$installer" prefix --nope
holds "its help" "$installer" --help
grep -q "^tools/install.sh \[PREFIX\] --remove " "$made/said" || fail "its help: $(cat "$made/said")"
same "its help"
breaks "a file as prefix" "you may not make files in" "$installer" file
breaks "a prefix in a file" "you may not make files in" "$installer" file/prefix
echo report_text >"$made/fails"
breaks "a proof that fails" "not everything was proved" "$installer" prefix
same "a proof that fails"
mkdir -p "$XDG_CACHE_HOME/expresso/crates/that_was/out"
echo link >"$made/fails"
breaks "a program that isn't built" "the program was not built" "$installer" prefix
same "a program that isn't built"
[ -d "$XDG_CACHE_HOME/expresso/crates/base_list/out" ] || fail "a program that isn't built: what was proved is gone"
[ ! -e "$XDG_CACHE_HOME/expresso/crates/that_was" ] || fail "a crate that is no longer there: its folder is left"
: >"$made/fails"
mv usage whole_usage
echo usage: >usage
breaks "a program with another usage" "not the usage that" "$installer" prefix
same "a program with another usage"
mv whole_usage usage
mv version whole_version
echo 9.9.9 >version
breaks "a program of another version" "the page has another version than" "$installer" prefix
same "a program of another version"
mv whole_version version

: >"$made/calls"
holds "an install" "$installer" prefix
grep -q "^Proving .* crates, .* at a time: about .* minutes" "$made/said" || fail "an install: how long does it take?"
grep -q "^\([0-9]*\) of \1: expresso_cli, [0-9]* minutes$" "$made/said" || fail "an install: how far is it?"
grep -q "^expresso $(cat version) stands in " "$made/said" || fail "an install: of which version?"
[ ! -e "$XDG_CACHE_HOME/expresso" ] || fail "an install: its folder is left"
prefix/bin/expresso | cmp - usage || fail "an install: not the program that was built"
for file in bin/expresso $("$made/copy/tools/manual.py" list); do
    [ -s "prefix/$file" ] || fail "an install: no $file"
done
[ "$(wc -l <calls)" -gt 40 ] || fail "an install: only $(wc -l <calls) crates"

before=$(picture)
: >"$made/calls"
holds "a second call" "$installer" prefix
grep -q "nothing to do" "$made/said" || fail "a second call: $(cat "$made/said")"
[ ! -s calls ] || fail "a second call: it proves"
same "a second call"
echo base_list >"$made/fails"
printf '// changed\n' >>"$made/copy/crates/lang_base/src/lib.rt"
breaks "a change whose proof fails" "not everything was proved" "$installer" prefix
same "a change whose proof fails"
: >"$made/fails"
holds "a change" "$installer" prefix
[ -s calls ] || fail "a change: it proves nothing"
before=$(picture)
printf '// changed\n' >>"$made/copy/crates/rows/src/main.rt"
holds "a change that is none of the program's" "$installer" prefix
same "a change that is none of the program's"
echo harmed >>prefix/share/man/man1/expresso.1
holds "a page that was harmed" "$installer" prefix
grep -q harmed prefix/share/man/man1/expresso.1 && fail "a page that was harmed: it is left"

: >"$made/calls"
cp prefix/bin/expresso given
holds "a program that is given" "$installer" given_prefix --program given
cmp given given_prefix/bin/expresso || fail "a program that is given: another one stands there"
[ ! -s calls ] || fail "a program that is given: it proves"
breaks "no program" "is no program" "$installer" given_prefix --program file
mkdir -p barred/share/man/man1/expresso.1
before=$(find barred | LC_ALL=C sort)
breaks "a folder in the way" "is a folder" "$installer" barred --program given
[ "$(find barred | LC_ALL=C sort)" = "$before" ] || fail "a folder in the way: something is left: $(find barred)"
holds "a removal" "$installer" given_prefix --remove
[ -z "$(find given_prefix -type f)" ] || fail "a removal: $(find given_prefix -type f) is left"
breaks "a second removal" "nothing is installed" "$installer" given_prefix --remove
echo "tools/install.sh installs once, whole or not at all"

page=prefix/share/man/man1/expresso.1
tried=''
if has groff; then
    groff -man -Tutf8 -ww -b "$page" >page.txt 2>page.warnings || fail "groff: the page"
    [ ! -s page.warnings ] || fail "groff warns: $(cat page.warnings)"
    tried+=' groff'
fi
if has mandoc; then
    mandoc -Tlint -W style "$page" >page.warnings || fail "mandoc warns: $(cat page.warnings)"
    tried+=' mandoc'
fi
if has man; then
    PATH="$made/prefix/bin:$PATH" MANPAGER=cat man expresso >page.txt 2>page.warnings || fail "man: no page"
    [ ! -s page.warnings ] || fail "man warns: $(cat page.warnings)"
    grep -q "compile monitors" page.txt || fail "man shows another page"
    tried+=' man'
fi
echo "the manual page renders without a warning, by:${tried:- nothing, as none of its programs is installed}"

# Each row is a line that is typed, `|`, and the words that its last one may become, in the folder
# below.
mkdir -p "$made/files/below" && cd "$made/files" || exit 1
touch lock.mon locks.cl lock.plan lock.report below/deep.mon below/deep.cl
cat >"$made/rows" <<'ROWS'
expresso ch|check
expresso re|recheck report
expresso ex|explain
expresso compile lo|lock.mon
expresso compile be|below/
expresso compile below/|below/deep.mon
expresso run lock.mon lo|locks.cl
expresso run --workers 2 lock.mon lo|locks.cl
expresso simulate --seed 4 lo|lock.mon
expresso simulate --seed=4 lock.mon lo|locks.cl
expresso audit lock.mon lo|lock.plan
expresso recheck lock.mon lock.r|lock.report
expresso compile --re|--relay
expresso compile --c|--count
expresso report lock.mon --|--count --fits
expresso run lock.mon locks.cl --w|--workers
expresso run lock.mon locks.cl --|--count --relay --workers
expresso run lock.mon locks.cl --relay --|--count --workers
expresso simulate lock.mon locks.cl --s|--seed --spurious
expresso --|--help --version
expresso --v|--version
expresso check --|
expresso check lock.mon lo|
expresso stress lo|
ROWS
tried=''
for shell in bash zsh fish; do
    if has $shell; then
        holds "completions in $shell" "$made/copy/tools/completions_check.py" $shell "$made/prefix" "$made/rows"
        tried+=" $shell"
    fi
done
echo "the completions complete, in:$tried"
