#!/usr/bin/env bash
# Prints the lines after which a store of the numbers `8 16 48 4 4 400` looks as docs/plots/example.svg shows it:
#
#     ./silt format example.silt 8 16 48 4 4 400
#     tools/example.sh | ./silt run example.silt > example.replies
#     python3 tools/draw_store.py example.silt docs/plots/example.svg
set -euo pipefail

puts() { for i in $(seq "$1" "$2"); do printf 'put =key%d %016x\n' "$i" "$i"; done; }
deletes() { for i in $(seq "$1" "$2"); do echo "delete =key$i"; done; }
times() { for _ in $(seq "$1"); do echo "$2"; done; }

puts 1 150          # three logs are full and frozen
times 200 convert   # each is a hash store
times 400 merge     # all are one sorted store
puts 131 230        # two logs more are frozen, with some keys for the second time
deletes 1 30
times 130 convert   # two hash stores
puts 231 270        # one frozen log, and the active one
echo flush
