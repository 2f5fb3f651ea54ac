#!/usr/bin/env bash
# Tries the edits crates/NAME/more-edits/*.edit, which the prover must refuse as it must those of must-fail/, on a copy of the
# repository. The merge gate tries must-fail/ alone; run this when a contract of the crate, or what it is stated in, has changed.
#
#     scripts/gate/more_edits.sh            the edits of every crate
#     scripts/gate/more_edits.sh NAME ..    those of these crates
#
# Takes 10 to 30 seconds an edit, and a check of the crate and of those below it where they were not proved yet. Fails where an edit
# is not refused.
set -eu
top=$(cd "$(dirname "$0")/../.." && pwd)
names=("$@")
if [ ${#names[@]} -eq 0 ]; then
    for folder in "$top"/crates/*/more-edits; do
        [ -d "$folder" ] && names+=("$(basename "$(dirname "$folder")")")
    done
fi
for name in "${names[@]}"; do
    [ -d "$top/crates/$name/more-edits" ] || { echo "crates/$name has no more-edits" >&2; exit 1; }
done
room=$(mktemp -d)
trap 'rm -rf "$room"' EXIT
tar -C "$top" --exclude=./.git --exclude='./crates/*/out' -cf - . | tar -C "$room" -xf -
# The kept proofs in out/ come along, so that what is proved already is not proved again: as links, since they take gigabytes, and as
# files where links can't be made. A check never writes into such a file: it removes the folder and makes another.
for kept in "$top"/crates/*/out/rlib; do
    [ -d "$kept" ] || continue
    to=$room${kept#"$top"}
    mkdir -p "${to%/rlib}"
    cp -al "$kept" "$to" 2>/dev/null || { rm -rf "$to" && cp -a "$kept" "$to"; }
done
for folder in "$room"/crates/*/must-fail; do
    rm -r "$folder"
done
for name in "${names[@]}"; do
    mv "$room/crates/$name/more-edits" "$room/crates/$name/must-fail"
done
cd "$room"
rt must-fail "${names[@]}"
