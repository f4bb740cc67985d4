#!/bin/sh
# echoes.sh [SEED [COUNT]]: generated indexes as echo files through the program echoes, against the original's answers. Last line: N passed, M failed.
. "$(dirname "$0")/build.sh"
program=crates/echoes/out/echoes
[ -x "$program" ] || (cd crates/echoes && rt run < stdin) >&2 || exit 1
exec "$tools/echoes" "${1:-1}" "${2:-2000}" "$program"
