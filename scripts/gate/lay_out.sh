#!/usr/bin/env bash
# Lays out a copy of the repository in which more programs are crates. The copies of scripts/bench/programs are `bench`, which times layers,
# `bench_index`, which times the kept indexes, and `bench_hub`, which times a hub over kept pages: they serve no reader, so the gate
# doesn't prove them. They stand as text, since the gate reads every file of code. In the copy `rt run < stdin -- tasks` in
# crates/bench proves and builds the first.
#
#     scripts/gate/lay_out.sh FOLDER
set -eu
cd "$(dirname "$0")/../.."
folder=${1:?usage: scripts/gate/lay_out.sh FOLDER}
mkdir -p "$folder"
folder=$(realpath "$folder")
tar --exclude=./.git -cf - . | tar -C "$folder" -xf -
for program in $(find scripts/bench/programs -mindepth 1 -maxdepth 1 -type d); do
    name=$(basename "$program")
    rm -rf "$folder/crates/$name"
    cp -r "$program" "$folder/crates/$name"
    find "$folder/crates/$name" -name '*.txt' | while read -r file; do mv "$file" "${file%.txt}"; done
    sed -i "/^$name:/d" "$folder/crates.txt"
    cat "$folder/crates/$name/line" >>"$folder/crates.txt"
    rm "$folder/crates/$name/line"
done
rm -r "$folder/scripts/bench/programs"
