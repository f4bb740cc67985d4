#!/bin/sh
# Builds the C tests and the example over libcurator_c.a and libhit_records.a and runs them. The last line is 'N passed, M failed'.
# CURATOR_LIB names the folder of the libraries (default target/staticlib, where `tools/static_libraries` writes them).
set -eu
cd "$(dirname "$0")/.."
folder=${CURATOR_LIB:-target/staticlib}
library="$folder/libcurator_c.a $folder/libhit_records.a"
out=target/c
mkdir -p "$out"
flags="-std=c11 -Wall -Wextra -Werror -O1 -ffp-contract=off -Ic"
passed=0
failed=0
for name in call_test names_test nan_test hits_test pool_test take_back_test withdraw_test text_test text_damage_test both_test both_damage_test; do
    ${CC:-gcc} $flags -o "$out/$name" "c/$name.c" $library
    "$out/$name" >"$out/$name.out" || true
    cat "$out/$name.out" | sed "s/^/$name: /"
    last=$(tail -n 1 "$out/$name.out")
    case $last in
        *' passed, '*' failed')
            passed=$((passed + ${last%% *}))
            rest=${last#*, }
            failed=$((failed + ${rest%% *})) ;;
        *) echo "$name: no last line"; failed=$((failed + 1)) ;;
    esac
done
${CC:-gcc} $flags -o "$out/example" c/example.c $library
if "$out/example" | diff - c/example.stdout; then passed=$((passed + 1)); else failed=$((failed + 1)); fi
echo "$passed passed, $failed failed"
[ "$failed" -eq 0 ]
