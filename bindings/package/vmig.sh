#!/bin/sh
# Runs the program with the words that it is given, and ends with its status. `--version`, `--help` and words that name no command are
# answered here. The program lies beside the folder of this script, wherever that is.
set -eu

@WORDS@

version() {
    echo 'vmig @VERSION@'
    echo '@PROOF@'
}

answer_words "$@"
begin "$(dirname "$(readlink -f "$0")")/../libexec/vmig/vmig" "$@"
