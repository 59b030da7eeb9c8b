#!/bin/sh
# Runs the harnesses over the built program: `run.sh quick` in four minutes, `run.sh long` in half an hour, `run.sh` both, and
# `run.sh --help` says how some of them are run. The program is $SSIKVD, or crates/ssikvd/out/ssikvd, which `rt run` in crates/ssikvd leaves. That of
# the engine and the hub by lines is $REFUSED_MEMORY, or crates/test_refused_memory/out/test_refused_memory, which `rt run` in crates/test_refused_memory leaves.
# That of the plain engine by lines is $PLAIN_PLAY, or crates/test_plain_play/out/test_plain_play.
exec python3 -B "$(dirname "$0")/runner.py" "$@"
