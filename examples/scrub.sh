#!/usr/bin/env bash
# A scrub finds a changed value, and a dump is the way back. scrub.out is what this prints.
set -euo pipefail

silt="$(cd "$(dirname "${BASH_SOURCE[0]}")/.." && pwd)/silt"
folder="$(mktemp -d)"
trap 'rm -r "$folder"' EXIT
store="$folder/store.silt"
dump="$folder/store.dump"

# Five puts freeze a log of four rows, and nine steps make it a hash store in region 0, at byte 28,672.
"$silt" format "$store" 2 2 4 2 2 8
{ for i in 1 2 3 4 5; do printf 'put %02d%038d %04d\n' "$i" 0 "$i"; done; echo flush; } | "$silt" run "$store"
for _ in 1 2 3 4 5 6 7 8 9; do echo convert; done | "$silt" run "$store" | tail -1

# What cron does each night: a check, and a dump of a store that is sound.
"$silt" check "$store"
"$silt" dump "$store" > "$dump"

# The disk changes the last byte of a value. Its key and its kind are as before, but not the digest.
printf '\002' | dd of="$store" bs=1 seek=28694 conv=notrunc status=none
"$silt" check "$store" || echo "status $?"

# A new store of the same numbers in place of the damaged one, and what that held.
"$silt" format "$store" 2 2 4 2 2 8 --force
(cat "$dump" && echo flush) | "$silt" run --tend --strict "$store" | tail -1
"$silt" dump "$store" | cmp - "$dump" && echo "all is back"
