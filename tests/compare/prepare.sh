# Sourced by the run scripts of compare and bench, from a folder beside this one: builds the oracle and sets lib, the folder of
# libwolfcloak.a. LIB: that folder, if not the one that tools/library writes. SHARED: what stands beside the repository
# as shared/, if it is elsewhere.
root=$(cd ../.. && pwd)
src=${SHARED:-$root/../shared}/docs/src/crates/manta-dsp/src
if [ ! -f "$src/floor.rs" ] || ! command -v rustc > /dev/null || ! command -v python3 > /dev/null; then
    echo "$0: floor.rs, rustc or python3 is not at hand; nothing was run"
    exit 0
fi
lib=${LIB:-$root/target/staticlib}
archive=$lib/libwolfcloak.a
if [ -z "${LIB:-}" ]; then
    if [ ! -f "$archive" ] || [ -n "$(find "$root/crates" -name '*.rt' -newer "$archive")" ]; then
        "$root/tools/library"
    fi
fi
mkdir -p build
python3 ../compare/oracle.py "$src" ../compare/build
