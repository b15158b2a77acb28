# For the scripts beside it: goes to their directory and sets MAYBENOT_SRC to where the Rust sources are. Where cargo
# or the sources are missing it says so and ends the script well.
cd "$(dirname "${BASH_SOURCE[0]}")"
command -v cargo > /dev/null || { echo "reference: cargo is not here, nothing was compared"; exit 0; }
sources=${MAYBENOT_SRC:-$(cat SOURCES)}
[ -f "$sources/framework.rs" ] || { echo "reference: no Rust sources in $sources, nothing was compared"; exit 0; }
MAYBENOT_SRC=$(cd "$sources" && pwd)
export MAYBENOT_SRC
