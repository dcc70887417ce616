#!/bin/sh
# The program of this file's name, in ../libexec/splicer, with an exit status: judged.sh there says which.
name=$(basename "$0")
parts=$(dirname "$(readlink -f "$0")")/../libexec/splicer
. "$parts/judged.sh"
judged "$name" "$#" "$parts/$name"
