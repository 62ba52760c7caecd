#!/usr/bin/env bash
# How long the program takes for texts of at most 2^20 bytes whose types build on one another in long chains, and the most memory that
# it has then: one run of each of the texts that chains.py makes, in wall time and in processor time, under /usr/bin/time. The circles
# are refused; the other texts run to their end. A run is ended after 120 seconds.
# Usage: bench/chains.sh [PROGRAM], where PROGRAM is the built program.
set -euo pipefail
source "$(dirname "${BASH_SOURCE[0]}")/timing.sh"

machine
python3 "$top/bench/chains.py" "$folder/texts"
for text in "$folder"/texts/*.Mod; do
    status=0
    /usr/bin/time -o "$folder/figures" -f '%e %U %S %M' timeout 120 "$program" run "$text" >"$folder/out" 2>&1 || status=$?
    read -r wall user system memory <<<"$(tail -1 "$folder/figures")"
    cpu=$(awk -v u="$user" -v s="$system" 'BEGIN { printf "%.2f", u + s }')
    printf '%-18s status %3s %8s s wall %8s s processor %8s KiB\n' "$(basename "$text" .Mod)" "$status" "$wall" "$cpu" "$memory"
done
