#!/bin/sh
# archives.sh [door|rolldoor|bench]..: proves and makes the x86-64 archives that people link, target/staticlib/libdoor.a, librolldoor.a (the
# card with a rolling counter) and libbench.a (the bench), by the kit from the crates door_c, door_rolling_c and door_bench_c; all three if
# none is named. One that is there of these sources is taken as it is.
set -eu
. "$(dirname "$0")/words.sh"
[ $# -gt 0 ] || set -- door rolldoor bench
for name; do
    case $name in
    door | rolldoor | bench) ;;
    *) refuse "'$name' is no archive: door, rolldoor, bench" ;;
    esac
done
needs rt
cd "$(dirname "$0")/.."
mkdir -p target
for name; do
    archive target/archives.log "$name"
done
