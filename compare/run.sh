#!/bin/sh
# run.sh [SEED [COUNT]]: first the differences that docs/DIFFERENCES.md names, then generated indexes against the original, the model and brute force.
# Last line: N passed, M failed.
. "$(dirname "$0")/build.sh"
"$tools/known" || exit 1
exec "$tools/compare" "${1:-1}" "${2:-20000}"
