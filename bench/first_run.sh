#!/bin/bash
# Measures the first ./vublk on a clean clone of HEAD, as on a machine where nothing was proved before,
# and then the second one. What the kit keeps of earlier runs here is hidden from it, which needs root.
set -eu
root=$(cd "$(dirname "$(readlink -f "$0")")/.." && pwd)
if [ "${1:-}" != hidden ]; then
    exec unshare --mount "$0" hidden
fi
kept=$(dirname "$(dirname "$(rt doc)")")/rattle-kept
if [ -d "$kept" ]; then
    mount -t tmpfs none "$kept"
fi
folder=$(mktemp -d)
trap 'rm -rf "$folder"' EXIT
git clone -q "$root" "$folder/vublk"
for turn in first second; do
    start=$(date +%s.%N)
    "$folder/vublk/vublk" replay <"$root/examples/write_and_read.txt" >"$folder/record"
    end=$(date +%s.%N)
    echo "$turn: $(echo "$start $end" | awk '{printf "%.2f", $2 - $1}') s, $(wc -l <"$folder/record") lines"
done
