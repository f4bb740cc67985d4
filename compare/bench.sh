#!/bin/sh
# bench.sh [ROUNDS]: measures both sides in one process and writes docs/BENCHMARKS.md and docs/benchmarks.svg.
. "$(dirname "$0")/build.sh"
page=docs/BENCHMARKS.md
{
    cat compare/benchmarks-head.md
    "$tools/bench" "${1:-21}" docs/benchmarks.svg || exit 1
    printf '## Memory held\n\n'
    cat compare/benchmarks-memory.md
    "$tools/memory" || exit 1
} >"$page.new"
mv "$page.new" "$page"
cat "$page"
