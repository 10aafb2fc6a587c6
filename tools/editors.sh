#!/usr/bin/env bash
# Checks the colours of editors/ over every monitor and client file of the repository and its rows:
# the TextMate grammar always, Vim's files where vim is installed. Fails where a token is left
# uncoloured, or is coloured as something else.
exec "$(dirname "$0")/editors.py"
