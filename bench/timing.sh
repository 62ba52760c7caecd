# What the scripts beside it share, which source it: the built program, which may be their first word, a folder for files, times of
# commands, their memory, and scripts for `replay`.
top=$(cd "$(dirname "${BASH_SOURCE[0]}")/.." && pwd)
program=${1:-$top/crates/aos_main/out/aos_main}
folder=$(mktemp -d)
trap 'rm -rf "$folder"' EXIT
if ! [ -x "$program" ]; then
    echo "$program isn't built: call ./aos once" >&2
    exit 1
fi

# Five runs of a command: a line each, with the wall time and the processor time in seconds.
five_runs() {
    local TIMEFORMAT='%3R %3U %3S'
    for _ in 1 2 3 4 5; do
        { time "$@" >"$folder/out" 2>/dev/null; } 2>&1
    done | awk '{ print $1, $2 + $3 }'
}

# The least of each column.
least() {
    awk 'NR == 1 || $1 < wall { wall = $1 } NR == 1 || $2 < cpu { cpu = $2 } END { printf "%.3f %.3f", wall, cpu }'
}

# A script of one worker with this budget, and with more steps than its programs make.
script() {
    printf 'aos-script 1\nworkers 1\nbudget %s\ns 0 100000000\nend\n' "$1" >"$folder/$1.script"
}

# The machine, and what else it has to do.
machine() {
    echo "model   $(LC_ALL=C lscpu | sed -n 's/^Model name: *//p' | head -1)"
    echo "cores   $(nproc)"
    echo "load    $(cut -d ' ' -f 1 /proc/loadavg)"
}

# A module begins so many statements: it ends in a budget of one more, and not in this one; and it writes what a program of CPython does.
begins_as_many() {
    local count=$1 module=$2 other=$3 status=0
    script $((count + 1))
    script "$count"
    "$program" replay --script "$folder/$((count + 1)).script" "$module" >"$folder/program.out"
    "$program" replay --script "$folder/$count.script" "$module" >/dev/null 2>&1 || status=$?
    [ "$status" = 5 ]
    python3 "$other" >"$folder/python.out"
    cmp "$folder/program.out" "$folder/python.out"
}

# The most memory that a command's process had at a time, in KiB. A small program starts it, since what a process had before it
# began the command counts too.
most_memory() {
    if ! [ -x "$folder/memory" ]; then
        cat >"$folder/memory.c" <<'M'
#include <stdio.h>
#include <sys/resource.h>
#include <sys/wait.h>
#include <unistd.h>

int main(int count, char **words) {
    struct rusage usage;
    int status;
    pid_t child = fork();
    if (child == 0) {
        freopen("/dev/null", "w", stdout);
        execvp(words[1], words + 1);
        _exit(127);
    }
    if (count < 2 || child < 0 || wait4(child, &status, 0, &usage) < 0 || status != 0) return 1;
    printf("%ld\n", usage.ru_maxrss);
    return 0;
}
M
        cc -O2 -o "$folder/memory" "$folder/memory.c"
    fi
    "$folder/memory" "$@"
}
