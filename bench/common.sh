# What the benches share. Sourced by each: it goes to no folder, and makes one that is removed at the end.
set -euo pipefail
bench=$(cd "$(dirname "$(readlink -f "${BASH_SOURCE[0]}")")" && pwd)
top=$(dirname "$bench")
work=$(mktemp -d)
trap 'rm -rf "$work"' EXIT

# Stops where a command that is named isn't there.
needs() {
    local name
    for name in "$@"; do
        type -P "$name" > /dev/null || { echo "${0##*/} needs $name" >&2; exit 1; }
    done
}

# Builds `ba` where it must be; the launcher says which crate is being proved.
build_ba() {
    "$top/ba" replay < /dev/null > /dev/null
    program=$top/.built/ba
}

# build_program NAME WORD..: builds the program of a crate where it must be, and runs it once with these words.
build_program() {
    local name=$1 log=$top/.built/log.$1 script=${0##*/}
    shift
    mkdir -p "$top/.built"
    echo "$script: proving and building $name; each line of the prover goes to $log" >&2
    if ! (cd "$top/crates/$name" && rt run -- "$@") < /dev/null 2>&1 | tee "$log" |
        sed -unE "s/^(rt: chose --jobs [0-9]+ for ([a-z0-9_]+)|[a-z]+ ([a-z0-9_]+)::.*: proved)$/$script: proving \\2\\3/p" | uniq >&2; then
        echo "$script: $name was not built; $log says why" >&2
        exit 1
    fi
    program=$top/crates/$name/out/$name
}

# least RUNS FILE COMMAND..: the least of so many runs on this input, in microseconds.
least() {
    python3 - "$@" <<'P'
import subprocess, sys, time
runs, file, *command = sys.argv[1:]
best = 1e9
for _ in range(int(runs)):
    with open(file) as source:
        start = time.perf_counter()
        subprocess.run(command, stdin=source, stdout=subprocess.DEVNULL, check=True)
        best = min(best, time.perf_counter() - start)
print(round(best * 1e6))
P
}

# ratio A B: A divided by B.
ratio() {
    awk -v a="$1" -v b="$2" 'BEGIN { printf "%.2f", a / b }'
}

# instructions FILE COMMAND..: how many the command takes on this input.
instructions() {
    local file=$1
    shift
    valgrind --tool=callgrind --callgrind-out-file=/dev/null "$@" < "$file" 2>&1 > /dev/null | sed -n 's/.*refs: *//p' | tr -d ,
}

# growth WHAT UNIT SMALL LARGE FILE FILE COMMAND..: instructions on two inputs of so many units, where valgrind is there.
growth() {
    local what=$1 unit=$2 small=$3 large=$4 first=$5 second=$6 a b
    shift 6
    command -v valgrind > /dev/null || return 0
    a=$(instructions "$first" "$@")
    b=$(instructions "$second" "$@")
    echo "$what: $a instructions for $small ${unit}s, $b for $large, ratio $(ratio "$b" "$a"); $((b / large)) a $unit"
}

# peak FILE COMMAND..: seconds and peak memory on this input.
peak() {
    local file=$1
    shift
    env time -f '%e s, %M KB at most' "$@" < "$file" 2>&1 > /dev/null
}
