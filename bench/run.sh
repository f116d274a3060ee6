#!/bin/sh
# Builds and runs the comparison in bench.c.
set -eu
cd "$(dirname "$0")/.."
exec examples/c/build.sh run bench bench/bench.c bench/random_curve.c bench/random_paths.c bench/random_ends.c bench/plain_curve.c bench/plain_knots.c bench/plain_ends.c bench/plain_join.c bench/plain_record.c bench/plain_svg.c bench/plain_feed.c
