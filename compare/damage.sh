#!/bin/sh
# damage.sh [SEED [COUNT]]: calls on damaged indexes, their lists between guard pages, against the model; then a hundredth of them under valgrind, in
# lists that hold nothing past the counts. Last line: N passed, M failed.
. "$(dirname "$0")/build.sh"
seed=${1:-1} count=${2:-20000}
"$tools/damage" "$seed" "$count" || exit 1
exec valgrind --quiet --error-exitcode=9 "$tools/unread" "$seed" $((count / 100))
