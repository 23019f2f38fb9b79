#!/usr/bin/env bash
# Builds the guests in C, with Debian's clang, lld, wasi-libc and libclang-rt-14-dev-wasm32, for the first feature set and without
# floating point. What it makes stands in the repository, so nothing else needs a C compiler.
set -eu
cd "$(dirname "$0")"
data=../crates/mv_live/data
clang --target=wasm32-wasi -mcpu=mvp -O2 -Wl,--strip-all -o "$data/args.wasm" args.c -lc-printscan-no-floating-point
# The stack lies below 8,192 and the globals from 16,384 on.
server() {
    clang --target=wasm32 -mcpu=mvp -O2 -nostdlib -ffreestanding -Wl,--no-entry -Wl,--strip-all -Wl,--stack-first \
        -Wl,-z,stack-size=8192 -Wl,--global-base=16384 "$@" echo.c
}
server -o "$data/echo.wasm"
server -DREPLY='"+OK\n"' -o "$data/plus.wasm"
# The state is where the linker puts it: the exported global tells the next version where.
store() {
    clang --target=wasm32 -mcpu=mvp -Oz -nostdlib -ffreestanding -Wall -Wextra -Wl,--no-entry -Wl,--strip-all \
        -Wl,--stack-first -Wl,-z,stack-size=8192 -Wl,--export=store "$@" kv.c
}
store -DVERSION=1 -o "$data/kv-1.wasm"
store -DVERSION=2 -o "$data/kv-2.wasm"
store -DVERSION=2 -DFIRST=1 -o "$data/kv-wrong.wasm"
store -DVERSION=2 -DTRAP=1 -o "$data/kv-trap.wasm"
chmod 644 "$data"/*.wasm
