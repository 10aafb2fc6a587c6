#!/usr/bin/env bash
# tools/install.sh [PREFIX] [--jobs N]   proves and builds expresso, and puts it below PREFIX (~/.local) with its manual
#                                        page and completions for bash, zsh and fish; N crates are proved at a time
# tools/install.sh [PREFIX] --program FILE   puts this program there, which was built before
# tools/install.sh [PREFIX] --remove         takes away what stands there
#
# It builds in a folder of its own. Nothing below PREFIX changes before the program is there and has
# printed its usage and version, and a second call does nothing where nothing has changed. What earlier runs of
# `rt ci` proved of the same text is not proved again where the kit keeps it, nor what a call that failed did.
here=$PWD
cd "$(dirname "$0")/.." || exit 1
rt=${RT:-rt}
record=share/expresso/installed
# What the proofs of the program take, in minutes of one processor, and the longest chain of crates
# that wait for one another, in minutes (bench/README.md); and the most room that they take
# meanwhile, in GB.
work=110
chain=30
room=10
stage=''
made_folders=()

say() {
    printf '%s\n' "$*"
}

fail() {
    printf 'tools/install.sh: %s\n' "$*" >&2
    exit 1
}

# clean: takes away what an unfinished call left below the prefix
clean() {
    local at
    [ -z "$stage" ] || rm -rf "$stage"
    for ((at = ${#made_folders[@]} - 1; at >= 0; at--)); do
        rmdir "${made_folders[at]}" 2>/dev/null
    done
}
trap clean EXIT
trap 'exit 130' INT
trap 'exit 143' TERM

# make_folder FOLDER: makes it and those above it, and remembers which were not there
make_folder() {
    [ -d "$1" ] && return
    make_folder "$(dirname "$1")" && mkdir "$1" && made_folders+=("$1")
}

# crates_below CRATE: the crate and all that it stands on, as crates.txt has them
crates_below() {
    awk -v wanted="$1" '
        /^[a-z]/ { name = $1; sub(/:.*/, "", name); order[++count] = name; $1 = ""; uses[name] = $0 }
        END {
            need[wanted] = 1
            do {
                grown = 0
                for (name in need) {
                    parts = split(uses[name], part, " ")
                    for (k = 1; k <= parts; k++)
                        if (part[k] in uses && !(part[k] in need)) { need[part[k]] = 1; grown = 1 }
                }
            } while (grown)
            for (k = 1; k <= count; k++) if (order[k] in need) print order[k]
        }' crates.txt
}

# files: what is read of the crates, each file with a zero byte behind it
files() {
    find "${crates[@]/#/crates/}" \( -name out -o -name must-fail \) -prune \
        -o -type f -print0 | LC_ALL=C sort -z
}

# sum: a number that changes where anything does of which the installed files are made
sum() {
    {
        if [ -n "$program" ]; then
            sha256sum <"$program"
        else
            "$rt" version
            say "${crates[@]}"
            files | xargs -0 sha256sum
        fi
        sha256sum tools/manual.txt tools/manual.py
    } | sha256sum | cut -d ' ' -f 1
}

# is_installed SUM: the files that the record names are there as it says, and were made of what has
# this sum
is_installed() {
    [ -f "$prefix/$record" ] && [ "$(head -n 1 "$prefix/$record")" = "sum $1" ] &&
        (cd "$prefix" && tail -n +2 "$record" | sha256sum --check --status)
}

# build: proves the crates side by side, and builds the program
build() {
    local at=0 begin=$SECONDS crate line minutes=$((work / jobs))
    [ "$minutes" -ge "$chain" ] || minutes=$chain
    say "Proving ${#crates[@]} crates, $jobs at a time: about $minutes minutes where the processors are idle,"
    say "less where the kit has kept proofs. $cache takes up to $room GB until the program stands."
    mkdir -p "$cache" || fail "no folder $cache"
    exec 9>"$cache/lock"
    flock -n 9 || fail "another call is building in $cache"
    # Of an earlier call only what was proved is left, of crates that are still there.
    for crate in "$cache"/crates/*/; do
        crate=$(basename "$crate")
        case " ${crates[*]} " in
            *" $crate "*) rm -rf "$cache/crates/$crate"/{src,specs,proofs} "$cache/crates/$crate"/out/expresso_cli ;;
            *) rm -rf "$cache/crates/$crate" ;;
        esac
    done
    files | xargs -0 cp --parents -t "$cache" || fail "no room for the sources in $cache"
    cp HANDLES "$cache" || fail "no room in $cache"
    for crate in "${crates[@]}"; do
        grep -w "^$crate" crates.txt
    done >"$cache/crates.txt"
    # (the checks want the top of a repository)
    mkdir -p "$cache/.git" || fail "no room in $cache"
    (cd "$cache" && RT_JOBS=$jobs exec "$rt" ci 2>&1 9>&-) | tee "$cache/log" | while IFS= read -r line; do
        case $line in
            'rt: '*' NOT PROVED'* | *': its tests '*) ;;
            'rt: '*' proved' | 'rt: '*' is kept: '*)
                at=$((at + 1))
                line=${line#rt: }
                say "$at of ${#crates[@]}: ${line%% *}, $(((SECONDS - begin + 30) / 60)) minutes"
                ;;
        esac
    done
    [ "${PIPESTATUS[0]}" = 0 ] || fail "not everything was proved; $cache/log says why, and what was proved is kept"
    program=$cache/crates/expresso_cli/out/expresso_cli
    [ -x "$program" ] || fail "the program was not built; $cache/log says why, and what was proved is kept"
}

# free FILE..: each may be put below the prefix
free() {
    local file at
    for file in "$@"; do
        [ ! -d "$prefix/$file" ] || fail "$prefix/$file is a folder"
        at=$(dirname "$prefix/$file")
        while [ ! -e "$at" ]; do
            at=$(dirname "$at")
        done
        [ -d "$at" ] || fail "no folder for $prefix/$file: $at is a file"
        [ -w "$at" ] || fail "you may not write in $at"
    done
}

# place: puts the program, its page and its completions below the prefix, each whole or not at all
place() {
    local file files=()
    make_folder "$prefix" || fail "no folder $prefix"
    stage=$(mktemp -d "$prefix/.expresso.XXXXXX") || fail "no folder in $prefix"
    install -D -m 755 "$program" "$stage/bin/expresso" || fail "no room in $prefix"
    tools/manual.py write "$stage" || fail "no room in $prefix"
    mapfile -t files < <(say bin/expresso; tools/manual.py list)
    mkdir -p "$stage/$(dirname "$record")" || fail "no room in $prefix"
    {
        say "sum $1"
        (cd "$stage" && sha256sum "${files[@]}")
    } >"$stage/$record" || fail "no room in $prefix"
    files+=("$record")
    for file in "${files[@]}"; do
        [ -f "$stage/$file" ] || fail "$file was not made"
        [ ! -d "$prefix/$file" ] || fail "$prefix/$file is a folder"
        make_folder "$(dirname "$prefix/$file")" || fail "no folder for $prefix/$file"
        [ -w "$(dirname "$prefix/$file")" ] || fail "you may not write in $(dirname "$prefix/$file")"
    done
    for file in "${files[@]}"; do
        mv -fT "$stage/$file" "$prefix/$file" || fail "$prefix/$file could not be put in place"
    done
    made_folders=()
}

# remove: takes away what the record names, and the record
remove() {
    local file
    [ -f "$prefix/$record" ] || fail "nothing is installed in $prefix"
    tail -n +2 "$prefix/$record" | cut -c 67- | while IFS= read -r file; do
        rm -f "$prefix/$file"
    done
    rm "$prefix/$record" && rmdir --ignore-fail-on-non-empty "$prefix/$(dirname "$record")"
    say "expresso is removed from $prefix."
}

prefix=''
program=''
jobs=''
wants_removal=''
while [ $# -gt 0 ]; do
    case $1 in
        --program | --jobs)
            [ $# -gt 1 ] || fail "$1 wants a word after it"
            if [ "$1" = --jobs ]; then jobs=$2; else program=$2; fi
            shift
            ;;
        --remove) wants_removal=1 ;;
        -h | --help)
            sed -n '2,/^[^#]/s/^# \{0,1\}//p' tools/install.sh
            exit
            ;;
        -*) fail "no such option: $1; --help says what there is" ;;
        *)
            [ -z "$prefix" ] || fail "one PREFIX is enough"
            prefix=$1
            ;;
    esac
    shift
done
prefix=$(cd "$here" && realpath -m "${prefix:-$HOME/.local}") || exit 1
[ -z "$program" ] || program=$(cd "$here" && realpath -m "$program") || exit 1
cache=${XDG_CACHE_HOME:-$HOME/.cache}/expresso
if [ -n "$wants_removal" ]; then
    remove
    exit
fi

# What can be found out before the proofs is found out before them.
above=$prefix
while [ ! -e "$above" ]; do
    above=$(dirname "$above")
done
if [ ! -d "$above" ] || [ ! -w "$above" ]; then
    fail "you may not make files in $prefix"
fi
mapfile -t wanted_files < <(say bin/expresso; tools/manual.py list; say "$record")
free "${wanted_files[@]}"
tools/manual.py check >/dev/null || fail "tools/manual.py check: $(tools/manual.py check)"
if [ -n "$program" ]; then
    if [ ! -f "$program" ] || [ ! -x "$program" ]; then
        fail "$program is no program"
    fi
elif ! command -v "$rt" >/dev/null; then
    fail "there is no $rt on the path, the command of Rattle's kit, which proves and builds the program"
fi
if [ -z "$jobs" ]; then
    # A proof takes up to 3 GB.
    memory=$(($(awk '/^MemAvailable/ { print $2 }' /proc/meminfo) / 3000000))
    jobs=$(nproc)
    [ "$jobs" -le "$memory" ] || jobs=$memory
    [ "$jobs" -ge 1 ] || jobs=1
fi
[[ $jobs =~ ^[1-9][0-9]*$ ]] || fail "--jobs wants a number above 0"

mapfile -t crates < <(crates_below expresso_cli)
wanted=$(sum)
if is_installed "$wanted"; then
    say "expresso stands in $prefix, and nothing has changed since: nothing to do."
    exit
fi
was_given=$program
[ -n "$program" ] || build
tools/manual.py check "$program" >/dev/null || fail "tools/manual.py check: $(tools/manual.py check "$program")"
# Somebody may have changed a file while it was proved.
if [ -z "$was_given" ] && [ "$(program='' && sum)" != "$wanted" ]; then
    fail "the sources have changed meanwhile: call it again"
fi
place "$wanted"
[ -n "$was_given" ] || rm -rf "$cache"
say "$("$prefix/bin/expresso" --version) stands in $prefix: bin/expresso, its manual page, and completions for bash, zsh and fish."
case :$PATH: in
    *:"$prefix/bin":*) ;;
    *) say "Put $prefix/bin on your path: export PATH=\"$prefix/bin:\$PATH\"" ;;
esac
case ${SHELL##*/} in
    zsh) say "For zsh's completions put this before compinit in .zshrc: fpath+=($prefix/share/zsh/site-functions)" ;;
esac
