#!/usr/bin/env bash
# A backup of a store: a copy of its file, made while no job has it open, and checked. backup.out is what this prints.
set -euo pipefail

silt="$(cd "$(dirname "${BASH_SOURCE[0]}")/.." && pwd)/silt"
folder="$(mktemp -d)"
trap 'rm -r "$folder"' EXIT
store="$folder/store.silt"
copy="$folder/copy.silt"

"$silt" format "$store" 2 2 4 2 2 8
printf 'put =apple 0102\nput =pear 0304\nflush\n' | "$silt" run "$store"

# That run has ended, so nobody writes to the file. The copy has each command that was acknowledged.
cp "$store" "$copy"
sync "$copy"
"$silt" check "$copy"

# The store goes on, and the copy is a store of its own.
printf 'delete =apple\nflush\nget =apple\n' | "$silt" run "$store"
printf 'get =apple\nget =pear\n' | "$silt" run "$copy"
