# shellcheck shell=bash
# For the scripts beside it, which source it from the top of the repository. It makes the folder $work, and takes it away.
work=$(mktemp -d)
trap 'rm -rf "$work"' EXIT

# beside NAME GOAL INPUT COMMAND YARDSTICK: the median processor time of $runs runs of each, by turns, in a row that begins with
# the ratio, and the peak memory of one run of the command more. What is to be at most GOAL stands in $work/verdicts; where GOAL is -, nothing is asked.
beside() {
    local name=$1 goal=$2 input=$3 command=$4 yardstick=$5 words
    read -r -a words <<< "$command"
    python3 bench/turns.py "${runs:?}" "$input" "$command" "$yardstick" > "$work/turns"
    /usr/bin/time -f %M -o "$work/peak" "${words[@]}" < "$input" > /dev/null 2> /dev/null
    cat "$work/peak" >> "$work/turns"
    paste -s -d ' ' "$work/turns" | awk -v name="$name" -v goal="$goal" -v verdicts="$work/verdicts" '{
        ratio = $1 / ($2 > 0 ? $2 : 0.001)
        printf "%-24s %6.2f %10.1f %10.1f %10d\n", name, ratio, $1, $2, $3
        if (goal != "-") printf "%s: %.2f, at most %s: %s\n", name, ratio, goal, ratio <= goal ? "met" : "not met" >> verdicts
    }'
}

heading() {
    printf '%-24s %6s %10s %10s %10s\n' "$1" ratio 'CPU ms' "$2" 'peak KiB'
}

verdicts() {
    echo
    cat "$work/verdicts"
}

processor() {
    echo "processor: $(sed -n 's/^model name[^:]*: //p' /proc/cpuinfo | head -n 1), $(nproc) cores"
}
