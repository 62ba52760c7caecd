#!/usr/bin/env bash
# How much memory a token takes: the most that the program has for each of the texts that tokens.py makes, without that for an empty
# module, by the tokens of the text. Each text is run once under /usr/bin/time; a run is ended after 120 seconds.
# Usage: bench/tokens.sh [PROGRAM], where PROGRAM is the built program.
set -euo pipefail
source "$(dirname "${BASH_SOURCE[0]}")/timing.sh"

most() {
    /usr/bin/time -o "$folder/figures" -f '%M' timeout 120 "$program" run "$1" >"$folder/out" 2>&1 || true
    tail -1 "$folder/figures"
}

machine
python3 "$top/bench/tokens.py" "$folder/texts" >"$folder/tokens"
echo 'MODULE M; END M.' >"$folder/M.Mod"
bare=$(most "$folder/M.Mod")
while read -r name tokens _; do
    memory=$(most "$folder/texts/$name.Mod")
    printf '%-18s %8s tokens %8s KiB %5s bytes a token\n' "$name" "$tokens" "$memory" $(((memory - bare) * 1024 / tokens))
done <"$folder/tokens"
