#!/usr/bin/env bash
# A backup of a store that is served, which a client orders, and the way back to it. served_backup.out is what this prints.
set -euo pipefail

silt="$(cd "$(dirname "${BASH_SOURCE[0]}")/.." && pwd)/silt"
folder="$(mktemp -d)"
trap 'kill $(jobs -p) 2>/dev/null; rm -r "$folder"' EXIT
cd "$folder"

"$silt" format store.silt 2 2 4 2 2 8
"$silt" serve store.silt 0 --backup copy.silt >served 2>notes &
until grep -q listening served; do sleep 0.1; done
port="$(sed -n 's/^listening //p' served)"
ask() { printf '%s\n' "$@" | nc -N 127.0.0.1 "$port"; }

# The backup has each command that had its reply before the order. The server goes on.
ask 'put =apple 0102' 'put =pear 0304' backup 'get =apple'
until grep -q 'a backup is written' notes; do sleep 0.1; done
"$silt" check copy.silt

# Somebody deletes what should have stayed.
ask 'delete =apple' 'delete =pear'
"$silt" stop "$port"

# The backup takes the place of the store.
mv copy.silt store.silt
printf 'get =apple\nget =pear\n' | "$silt" run store.silt
