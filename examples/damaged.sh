#!/usr/bin/env bash
# A damaged file, and the way back to its copy. damaged.out is what this prints.
set -euo pipefail

silt="$(cd "$(dirname "${BASH_SOURCE[0]}")/.." && pwd)/silt"
folder="$(mktemp -d)"
trap 'rm -r "$folder"' EXIT
store="$folder/store.silt"
copy="$folder/copy.silt"

"$silt" format "$store" 2 2 4 2 2 8
printf 'put =apple 0102\nflush\n' | "$silt" run "$store"
cp "$store" "$copy"

# The kind of the first row of log 0, whose commit byte is open, becomes 3. No job writes to a damaged store.
printf '\003' | dd of="$store" bs=1 seek=16384 conv=notrunc status=none
"$silt" check "$store" || echo "status $?"
"$silt" run "$store" < /dev/null || echo "status $?"

# A file that is one byte too short.
truncate -s -1 "$store"
"$silt" check "$store" || echo "status $?"

cp "$copy" "$store"
echo 'get =apple' | "$silt" run "$store"
