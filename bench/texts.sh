#!/usr/bin/env bash
# How fast the program handles long texts: a module whose text has nearly 2^20 bytes, with one string constant of 1,000,000
# characters, which COPY puts into an array that is then compared with the constant and written by Out.String; against a program
# written by hand in C (texts.c) that reads the same file and does the same work. Both make 1 round and 21 rounds, and what 20
# rounds take is the difference; each figure is the best of five, in wall time and in processor time, which other work on the
# machine disturbs less. Usage: bench/texts.sh [PROGRAM], where PROGRAM is the built program.
set -euo pipefail
source "$(dirname "${BASH_SOURCE[0]}")/timing.sh"
characters=1000000
most=$((1 << 20))
few=1
many=21

cc -O2 -o "$folder/by_hand" "$top/bench/texts.c"

# A module that makes so many rounds. It is filled up with blanks, so that its text is as long as one may be but for its last bytes.
module() {
    awk -v n="$characters" -v rounds="$1" -v most="$((most - 64))" 'BEGIN {
        letters = "abcdefghijklmnopqrstuvwxyz"
        while (length(letters) < n) letters = letters letters
        text = "MODULE Texts;\nIMPORT Out;\nCONST long = \"" substr(letters, 1, n) "\";\n"
        text = text "VAR copy: ARRAY " n + 1 " OF CHAR; i: LONGINT; same: BOOLEAN;\n"
        text = text "BEGIN\n  i := 0; same := TRUE;\n  WHILE (i < " rounds ") & same DO\n"
        text = text "    COPY(long, copy); same := copy = long; Out.String(copy); i := i + 1\n"
        printf "%s  END%" most - length(text) "s\nEND Texts.\n", text, ""
    }' >"$folder/$1.Mod"
}

# What both write in so many rounds is the same.
same_output() {
    "$program" run "$folder/$1.Mod" >"$folder/program.out"
    "$folder/by_hand" "$folder/$1.Mod" "$1" >"$folder/by_hand.out"
    cmp "$folder/program.out" "$folder/by_hand.out"
    [ "$(stat -c %s "$folder/program.out")" = $((characters * $1)) ]
}

for rounds in "$few" "$many"; do
    module "$rounds"
    same_output "$rounds"
done

machine
echo "text    $(stat -c %s "$folder/$few.Mod") bytes, with a string constant of $characters characters"

read -r wall_few cpu_few <<<"$(five_runs "$program" run "$folder/$few.Mod" | least)"
read -r wall_many cpu_many <<<"$(five_runs "$program" run "$folder/$many.Mod" | least)"
read -r c_wall_few c_cpu_few <<<"$(five_runs "$folder/by_hand" "$folder/$few.Mod" "$few" | least)"
read -r c_wall_many c_cpu_many <<<"$(five_runs "$folder/by_hand" "$folder/$many.Mod" "$many" | least)"

# A figure beside that of C: what it is of, the wall time and the processor time of both.
beside() {
    awk -v what="$1" -v w="$2" -v p="$3" -v cw="$4" -v cp="$5" 'BEGIN {
        printf "%s\n", what
        printf "  program  %.3f s wall, %.3f s processor\n", w, p
        printf "  C        %.3f s wall, %.3f s processor\n", cw, cp
        if (cw > 0 && cp > 0) printf "  ratio    %.1f times the wall time of C, %.1f times its processor time\n", w / cw, p / cp
    }'
}

less() {
    awk -v a="$1" -v b="$2" 'BEGIN { printf "%.3f", a - b }'
}

beside "the whole process, $few round" "$wall_few" "$cpu_few" "$c_wall_few" "$c_cpu_few"
beside "the whole process, $many rounds" "$wall_many" "$cpu_many" "$c_wall_many" "$c_cpu_many"
beside "$((many - few)) rounds alone" "$(less "$wall_many" "$wall_few")" "$(less "$cpu_many" "$cpu_few")" \
    "$(less "$c_wall_many" "$c_wall_few")" "$(less "$c_cpu_many" "$c_cpu_few")"
