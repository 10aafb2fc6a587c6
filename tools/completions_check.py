#!/usr/bin/env python3
"""`tools/completions_check.py SHELL PREFIX ROWS` tries the completions below PREFIX in bash, zsh or fish.

A row of ROWS is a line that is typed, `|`, and the words that its last word may become, in the folder at hand. Prints
each row that comes out otherwise, and fails where there is one.
"""

import os
import pathlib
import pty
import select
import subprocess
import sys
import time

BASH = """
source "$1/share/bash-completion/completions/expresso" || exit
shift
COMP_WORDS=("$@") COMP_CWORD=$(($# - 1))
_expresso expresso "${COMP_WORDS[COMP_CWORD]}" "${COMP_WORDS[COMP_CWORD - 1]}"
printf '%s\\n' "${COMPREPLY[@]}"
"""

# Each word that is about to be offered goes into a file, and a line `end` once all are there.
ZSH = """PS1= ; unsetopt zle_bracketed_paste auto_list list_beep beep
fpath=({prefix}/share/zsh/site-functions $fpath); autoload -Uz compinit && compinit -u -D
compadd() {{ case " ${{(j. .)@[1,(i)(-|--)]}} " in (*" -"[OAD]" "*) builtin compadd "$@"; return;; esac;"""
ZSH += """ local -a found; builtin compadd -A found "$@"; print -rl -- $found >>{offered}; builtin compadd "$@" }}
tried() {{ zle complete-word; print end >>{offered} }}; zle -N tried; bindkey '^T' tried; bindkey '^U' kill-whole-line
print end >>{offered}
"""


def by_bash(prefix, line):
    # Bash takes a `=` for a word of its own.
    words = line.replace("=", " = ").split(" ")
    command = ["bash", "--norc", "-c", BASH, "bash", prefix, *words]
    ran = subprocess.run(command, capture_output=True, text=True, check=True)
    return [word + "/" * os.path.isdir(word) for word in ran.stdout.split()]


def by_fish(prefix, line):
    source = f"source {prefix}/share/fish/vendor_completions.d/expresso.fish; complete -C {line!r}"
    ran = subprocess.run(["fish", "--no-config", "-c", source], capture_output=True, text=True, check=True)
    return [row.split("\t")[0] for row in ran.stdout.splitlines()]


class Zsh:
    """An interactive zsh, as only that completes."""

    def __init__(self, prefix):
        self.offered = pathlib.Path(prefix).parent / "offered"
        pid, self.terminal = pty.fork()
        if pid == 0:
            os.environ["TERM"] = "dumb"
            os.execvp("zsh", ["zsh", "-f", "-i"])
        self.type(ZSH.format(prefix=prefix, offered=self.offered))

    def type(self, keys):
        """Types keys, and answers the words that are offered; it reads what comes back, so that nothing blocks."""
        self.offered.write_text("")
        os.write(self.terminal, keys.encode())
        end = time.monotonic() + 60
        while not self.offered.read_text().endswith("end\n"):
            if time.monotonic() > end:
                sys.exit(f"zsh doesn't answer to {keys!r}")
            if select.select([self.terminal], [], [], 0.02)[0]:
                os.read(self.terminal, 4096)
        return sorted(set(self.offered.read_text().split()) - {"end"})

    def __call__(self, _, line):
        words = self.type(f"\x15{line}\x14")
        folder = os.path.dirname(line.split(" ")[-1])
        return [os.path.join(folder, word) + "/" * os.path.isdir(os.path.join(folder, word)) for word in words]


def main(shell, prefix, rows):
    reader = {"bash": lambda: by_bash, "fish": lambda: by_fish, "zsh": lambda: Zsh(prefix)}[shell]()
    faults = 0
    for row in pathlib.Path(rows).read_text().splitlines():
        line, _, wanted = row.partition("|")
        found = reader(prefix, line)
        if sorted(found) != sorted(wanted.split()):
            print(f"{line!r} may become {found}, not {wanted.split()}")
            faults += 1
    return 1 if faults else 0


if __name__ == "__main__":
    sys.exit(main(*sys.argv[1:]))
