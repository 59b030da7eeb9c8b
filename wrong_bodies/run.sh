#!/bin/sh
# Tries the wrong bodies of this folder, which the gate leaves out for its time: `wrong_bodies/run.sh [--gate] [CRATE..]`, all crates where none is
# named. The prover must refuse each. Many are tried in one check, on a copy of the repository: some minutes for each crate (batches.py).
# With `--gate` those of the crates' own folders `must-fail` as well; `batches.py --help` explains `--controls` and `--log FILE`.
# `wrong_bodies/run.sh --applies [CRATE..]` proves nothing: it looks whether each of them, and of those in the crates' own folders, still fits the
# code. `wrong_bodies/run.sh --table` prints what came out for each crate when they were last tried; `--write` writes that into docs/TESTING.md.
set -e
if [ "$1" = --help ] || [ "$1" = -h ]; then
    sed -n '2,/^set/ s/^# //p' "$0"
    exit 0
fi
here=$(cd "$(dirname "$0")" && pwd)
if [ "$1" = --applies ]; then
    shift
    exec python3 -B "$here/applies.py" "$@"
fi
if [ "$1" = --table ] || [ "$1" = --write ]; then
    exec python3 -B "$here/applies.py" "$@"
fi
exec python3 -B "$here/batches.py" "$@"
