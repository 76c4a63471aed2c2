# Sourced by benches. `setup NAME CRATE..` makes, in a temporary folder "$work", a program NAME of the bench's main.txt over copies
# of these crates of the repository. "$here" is the bench's own folder.
set -euo pipefail
here=$(cd "$(dirname "$0")" && pwd)
top=$(cd "$here/../.." && pwd)
work=$(mktemp -d)
trap 'rm -rf "$work"' EXIT

setup() {
    local name=$1 crate part
    shift
    mkdir -p "$work/crates/$name/src"
    cp "$here/main.txt" "$work/crates/$name/src/main.rt"
    cp "$top/HANDLES" "$work/HANDLES"
    for crate in "$@"; do
        mkdir -p "$work/crates/$crate"
        for part in src specs proofs; do
            if [ -d "$top/crates/$crate/$part" ]; then
                cp -r "$top/crates/$crate/$part" "$work/crates/$crate/$part"
            fi
        done
        grep -E "^$crate[ :]" "$top/crates.txt" | sed 's/ [a-z_]*=[A-Za-z0-9+]*//g' >>"$work/crates.txt"
    done
}
