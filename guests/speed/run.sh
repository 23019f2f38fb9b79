#!/usr/bin/env bash
# Prints how long five integer programs take in this host and in wasm-interp, the interpreter of wabt, with the ratios, and what single
# instructions take. Give it the program: guests/speed/run.sh PROGRAM. It needs Debian's clang, lld and wabt, and removes what it
# builds. Each is run three times, in both in turns, and the least processor time counts. docs/MACHINE.md tells more.
set -eu
if [ $# -ne 1 ]; then
    echo "usage: $0 PROGRAM" >&2
    exit 2
fi
program=$(realpath "$1")
cd "$(dirname "$0")"
room=$(mktemp -d)
trap 'rm -r "$room"' EXIT
TIMEFORMAT='%U %S'

build() {
    clang --target=wasm32 -mcpu=mvp -O2 -nostdlib -ffreestanding -fno-builtin -Wall -Wextra -Wl,--no-entry -Wl,--strip-all \
        -Wl,--stack-first -Wl,-z,stack-size=8192 "-DROUNDS=$2" -o "$room/$1.wasm" "$1.c"
}

# The processor time of a command in seconds; what the command prints goes to a file.
seconds() {
    local out=$1
    shift
    { time "$@" >"$out" 2>"$room/errors"; } 2>&1 | awk '{ printf "%.2f", $1 + $2 }'
}

# Both have to come to the same result: this host's guest prints it in hexadecimal, and wasm-interp in decimal.
same() {
    local ours theirs
    ours=$(sed -n 1p "$room/ours")
    theirs=$(sed -n 's/^result() => i32:\([0-9]*\)$/\1/p' "$room/theirs")
    if [ "$ours" != "$(printf '%08x' "$theirs")" ] || ! grep -qx 'ended 0' "$room/ours"; then
        echo "$1: '$ours' here, '$theirs' in wasm-interp" >&2
        exit 1
    fi
}

least() {
    printf '%s\n' "$@" | sort -n | sed -n 1p
}

compare() {
    local ours=() theirs=()
    build "$1" "$2"
    for _ in 1 2 3; do
        theirs+=("$(seconds "$room/theirs" wasm-interp --run-all-exports --dummy-import-func "$room/$1.wasm")")
        ours+=("$(seconds "$room/ours" "$program" run "$room/$1.wasm")")
        same "$1"
    done
    least "${ours[@]}" >"$room/least"
    least "${theirs[@]}" >>"$room/least"
    awk -v name="$1" 'NR == 1 { ours = $1 } NR == 2 { printf "| %s | %.2f | %.2f | %.1f |\n", name, ours, $1, ours / $1 }' "$room/least"
}

# A loop of these lines a hundred times over, one instruction each, which traps once 50,000,000 have counted.
cost() {
    local name=$1 all=()
    shift
    {
        printf '%s\n' 'type ->' 'memory 1' 'export "_start" func 1' 'func 0' endfunc 'func 0 i32' loop
        for _ in {1..100}; do
            printf '%s\n' "$@"
        done
        printf '%s\n' 'br 0' end endfunc
    } >"$room/text"
    "$program" assemble "$room/text" "$room/loop.wasm" >"$room/ours"
    for _ in 1 2 3; do
        all+=("$(seconds "$room/ours" "$program" run "$room/loop.wasm")")
        if ! grep -qx 'trapped Spent' "$room/ours"; then
            echo "$name: $(cat "$room/ours")" >&2
            exit 1
        fi
    done
    least "${all[@]}" | awk -v name="$name" '{ printf "| %s | %.0f |\n", name, $1 * 20 }'
}

echo '| Program | `run`, seconds | `wasm-interp`, seconds | Ratio |'
echo '|---|---|---|---|'
compare sieve 10
compare matrix 10
compare fib 40
compare crc 10
compare sort 10

nops=()
for _ in {1..100}; do
    nops+=(nop)
done

echo
echo '| Instructions | Nanoseconds each |'
echo '|---|---|'
cost '`nop`' nop
cost '`local.get`, `drop`' 'local.get 0' drop
cost '`i32.const`, `i32.const`, `i32.add`, `drop`' 'i32.const 1' 'i32.const 2' i32.add drop
cost '`i32.const`, `i32.load`, `drop`' 'i32.const 8' 'i32.load 2 0' drop
cost '`i32.const`, `i32.const`, `i32.store`' 'i32.const 8' 'i32.const 1' 'i32.store 2 0'
cost '`block`, which ends' block end
cost '`block`, `br` to its end, which is next' block 'br 0' end
cost '`block`, `br` to its end, 100 instructions away' block 'br 0' "${nops[@]}" end
cost '`i32.const`, `if` not taken, 100 instructions long' 'i32.const 0' if "${nops[@]}" end
cost '`call` of a function that does nothing' 'call 0'
