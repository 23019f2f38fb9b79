#!/usr/bin/env bash
# Plays the whole life of a key-value store over loopback, with clients that check each reply: updates that are rolled back, discarded,
# promoted and finished. Give it the program: guests/scene.sh PROGRAM. It builds nothing. Its status is 0 where each reply was right.
set -eu
here=$(cd "$(dirname "$0")" && pwd)
if [ $# -ne 1 ]; then
    echo "usage: $0 PROGRAM" >&2
    exit 2
fi
exec python3 "$here/scene.py" "$(realpath "$1")" "$here/../crates/mv_live/data"
