#!/usr/bin/env bash
# Gets the published spec.txt of CommonMark 0.31.2 (652 examples) from Debian's source package of md4c 0.5.2, and writes it
# to the file that is named (spec.txt where none is). `docs_server examples FILE` renders its examples and says which differ.
set -eu
out=$(realpath "${1:-spec.txt}")
scratch=$(mktemp -d)
trap 'rm -rf "$scratch"' EXIT
mirror=$(sed -n 's/^URIs: *//p' /etc/apt/sources.list.d/debian.sources 2>/dev/null | head -1)
mkdir -p "$scratch/lists/partial" "$scratch/archives/partial"
echo "deb-src [signed-by=/usr/share/keyrings/debian-archive-keyring.gpg] ${mirror:-http://deb.debian.org/debian} trixie main" >"$scratch/sources.list"
options=(-o "Dir::Etc::sourcelist=$scratch/sources.list" -o Dir::Etc::sourceparts=- -o "Dir::State::lists=$scratch/lists" -o "Dir::Cache=$scratch" -o APT::Sandbox::User=root)
cd "$scratch"
apt-get "${options[@]}" update -qq
# A mirror may lack the description of the package: apt then still leaves the source itself, checked against the signed index.
apt-get "${options[@]}" source --download-only -qq md4c=0.5.2-2 2>/dev/null || true
tar xf md4c_*.orig.tar.* --wildcards --strip-components=2 '*/test/spec.txt'
cp spec.txt "$out"
grep -c '^`\{32\} example' "$out"
