#!/usr/bin/env bash
# Sees to it that programs of Debian are there: those that are lacking are installed by apt-get where it may be run, else they are named.
#
#     scripts/gate/needs.sh COMMAND[=PACKAGE]..
#
# A command without PACKAGE is in the package of its own name. Status 1 where one is still lacking.
set -eu
lacking=() packages=()
export PATH=$PATH:/usr/sbin:/sbin
for need; do
    command -v "${need%%=*}" > /dev/null || { lacking+=("${need%%=*}"); packages+=("${need##*=}"); }
done
[ ${#lacking[@]} != 0 ] || exit 0
if [ "$(id -u)" = 0 ] && command -v apt-get > /dev/null; then
    export DEBIAN_FRONTEND=noninteractive
    # a service that comes with a package isn't started
    policy=/usr/sbin/policy-rc.d
    [ -e "$policy" ] || { trap 'rm -f "$policy"' EXIT; printf '#!/bin/sh\nexit 101\n' > "$policy"; chmod 755 "$policy"; }
    { apt-get update -qq && apt-get install -y -qq --no-install-recommends "${packages[@]}"; } > /dev/null 2>&1 || true
fi
for command in "${lacking[@]}"; do
    command -v "$command" > /dev/null || { echo "lacking: $command (apt-get install ${packages[*]})" >&2; exit 1; }
done
