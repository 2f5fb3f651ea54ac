#!/usr/bin/env bash
# Refuses growths of memory to the trial programs as they were proved and built, from outside: a small library that is preloaded counts
# the calls of malloc and realloc of marked lines and refuses one, or one and all that follow up to the answer. A call whose growth was
# refused must say so and have changed nothing, or answer as with ample memory. What is run and how it is marked stands in
# scripts/site/refusals/NAME.lines, by the head of scripts/site/refusals/refuse.py.
#
#     scripts/site/refusals.sh [PROGRAMS [NAME [SCENE]]]
#
# PROGRAMS is a folder with the programs by their names, or crates/, where they lie as NAME/out/NAME (as the gate leaves them; if it's
# left out, too). NAME is the one program to try (trial_pages), SCENE the one scene of it.
# Builds nothing but the library (by cc). A thousand runs of short scenes take 5 to 10 seconds.
set -eu
top=$(cd "$(dirname "$0")/../.." && pwd)
programs=$(realpath "${1:-$top/crates}")
scratch=$(mktemp -d)
trap 'rm -r "$scratch"' EXIT
cc -std=gnu11 -O2 -Wall -Wextra -shared -fPIC -o "$scratch/refuse.so" "$top/scripts/site/refusals/refuse.c"
failed=0
for lines in "$top"/scripts/site/refusals/*.lines; do
    name=$(basename "$lines" .lines)
    [ "${2:-$name}" = "$name" ] || continue
    program=$programs/$name
    [ -d "$program" ] && program=$program/out/$name
    [ -x "$program" ] || { echo "$program: no program" >&2; exit 1; }
    python3 "$top/scripts/site/refusals/refuse.py" "$scratch/refuse.so" "$program" "$lines" ${3:+"$3"} || failed=1
done
exit $failed
