#!/bin/sh
# Checks 10,000 schedules of acts, pieces and takes over two sessions in memory, and prints what was done in them, or the
# schedule and the act at which something happened that must not. After `each` the plain programs judge each item of each
# journal as it comes; the schedules are shorter then, and all of them take a quarter of an hour of one processor. It times nothing.
# usage: bench/schedules.sh [each] [SEED [COUNT]]
program=$(dirname "$0")/../crates/try_session/out/try_session
if [ ! -x "$program" ]; then
    echo "build it first: .ci/run, or rt run in crates/try_session" >&2
    exit 1
fi
if [ "$1" = each ]; then
    exec "$program" each "${2:-1}" "${3:-10000}"
fi
exec "$program" "${1:-1}" "${2:-10000}"
