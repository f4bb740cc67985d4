# Builds the tools; sourced by the scripts beside it. Variables:
#   CURATOR_SRC  the folder of the original's sources, from the top of the repository (default ../shared/docs/src)
#   CURATOR_LIB  the folder of libcurator_c.a (default target/staticlib, where 'tools/static_libraries' writes it when a crate has changed)
top=$(cd "$(dirname "$0")/.." && pwd -P)
cd "$top" || exit 2
export CURATOR_SRC="${CURATOR_SRC:-../shared/docs/src}"
export CARGO_TARGET_DIR="$top/target/compare"
if [ -z "${CURATOR_LIB:-}" ]; then
    CURATOR_LIB=$top/target/staticlib
    library=$CURATOR_LIB/libcurator_c.a
    if [ ! -f "$library" ] || [ -n "$(find crates crates.txt -newer "$library" -type f -print -quit)" ]; then
        tools/static_libraries >&2 || exit 1
    fi
fi
export CURATOR_LIB
cargo build --manifest-path compare/Cargo.toml --release --offline --quiet || exit 2
tools=$CARGO_TARGET_DIR/release
