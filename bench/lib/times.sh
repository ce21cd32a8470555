# shellcheck shell=bash disable=SC2154
# What the shell scripts of this folder share. A script sets `top`, the repository, and `answer`, the file for what a timed command
# writes, before it sources this.

# The program that a word names, or, where it is empty, the proved one, which is proved and built first.
program_of() { # [PROGRAM]
    if [ -n "${1:-}" ]; then
        readlink -f "$1"
    else
        "$top/bin/ubq" --prove >&2 && echo "$top/crates/ubq/out/ubq"
    fi
}

# The least nanoseconds of some runs of a command, since what else the machine does only adds.
least() { # RUNS COMMAND..
    local runs=$1 start end best=0 run
    shift
    for ((run = 0; run < runs; run++)); do
        start=$(date +%s%N)
        "$@" > "$answer"
        end=$(date +%s%N)
        if [ "$best" -eq 0 ] || [ $((end - start)) -lt "$best" ]; then best=$((end - start)); fi
    done
    echo "$best"
}
