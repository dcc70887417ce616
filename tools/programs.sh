#!/bin/sh
# programs.sh [card|checker|remember|referee]..: proves and builds the programs, target/bin/card and so on, for x86-64; all four if none is
# named. One that is there of these sources is taken as it is. tools/run-program.sh runs them.
set -eu
. "$(dirname "$0")/words.sh"
[ $# -gt 0 ] || set -- card checker remember referee
for name; do
    case $name in
    card | checker | remember | referee) ;;
    *) refuse "'$name' is no program: card, checker, remember, referee" ;;
    esac
done
needs rt
cd "$(dirname "$0")/.."
mkdir -p target
programs target/programs.log "$@"
