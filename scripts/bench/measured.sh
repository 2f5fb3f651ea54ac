#!/usr/bin/env bash
# Prints the line that goes above a measurement: the date, the commit, and the machine's cores with what else it is busy with.
# The scripts that measure begin with it, so that what they print can go into docs/MEASURED.md as it stands.
set -eu
cd "$(dirname "$0")/../.."
commit=$(git rev-parse --short HEAD 2>/dev/null || echo unknown)
[ -z "$(git status --porcelain 2>/dev/null)" ] || commit="$commit with edits"
model=$(sed -n 's/^model name[^:]*: *//p' /proc/cpuinfo 2>/dev/null | head -1)
load=$(cut -d' ' -f1 /proc/loadavg 2>/dev/null || echo unknown)
echo "$(date -u +%Y-%m-%d), commit $commit, $(nproc) cores${model:+ ($model)}, load $load"
