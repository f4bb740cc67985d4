#!/bin/sh
# replay.sh [SEED [COUNT [FOLDER]]]: writes a sample of the original's answers to FOLDER/stdin and FOLDER/stdout. Last line: N passed, M failed.
. "$(dirname "$0")/build.sh"
folder=${3:-target/replay}
mkdir -p "$folder"
exec "$tools/replay" "${1:-1}" "${2:-60}" "$folder"
