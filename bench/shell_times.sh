#!/usr/bin/env bash
# How long parsh, as it was built last, takes over the largest script: put and get lines; and over one line that fills a
# hash table with 100,000 numbers. Prints the least of five runs of each, in seconds.
set -eu
cd "$(dirname "$0")/.."
program=$PWD/crates/parsh/out/parsh
folder=$(mktemp -d)
trap 'rm -rf "$folder"' EXIT

# 1,048,576 bytes at most: a table, and then a put and a get of each of many keys.
awk 'BEGIN { size = 6; print "table"; for (i = 1; ; i++) { put = "put key" i " " i; get = "get key" i
  size += length(put) + length(get) + 2; if (size > 1048576) exit; print put; print get } }' >"$folder/lines"
printf 'table\nfill 100000\n' >"$folder/fill"

# NAME PAGES
least() {
  local best=
  for _ in 1 2 3 4 5; do
    local begin end
    begin=$(date +%s%N)
    "$program" --pages "$2" <"$folder/$1" >"$folder/answers"
    end=$(date +%s%N)
    if [ -z "$best" ] || [ $((end - begin)) -lt "$best" ]; then best=$((end - begin)); fi
  done
  printf '%s: %s lines, %s bytes, %s pages: %s.%03d s; last answer: %s\n' "$1" "$(wc -l <"$folder/$1")" "$(wc -c <"$folder/$1")" "$2" \
    $((best / 1000000000)) $((best / 1000000 % 1000)) "$(tail -n 1 "$folder/answers")"
}
least lines 4096
least fill 4096
