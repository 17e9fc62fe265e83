# Makes a program beside copies of crates of this repository, in a folder of its own under /tmp, and goes into its crate.
# It is sourced by the scripts of this folder. usage: beside PROGRAM 'CRATES..' 'USES..'
# CRATES are copied with what their checks kept; USES are those that the program names.
beside() {
    local program=$1 crates=$2 uses=$3 top work crate part
    top=$(cd "$(dirname "${BASH_SOURCE[0]}")/.." && pwd)
    work=$(mktemp -d -t "${program}_bench.XXXXXX")
    trap "rm -rf '$work'" EXIT
    for crate in $crates; do
        mkdir -p "$work/crates/$crate"
        for part in src specs proofs out; do
            if [ -d "$top/crates/$crate/$part" ]; then cp -r "$top/crates/$crate/$part" "$work/crates/$crate/"; fi
        done
        grep -E "^$crate:" "$top/crates.txt" >> "$work/crates.txt"
    done
    echo "$program: $uses" >> "$work/crates.txt"
    mkdir -p "$work/crates/$program/src"
    cd "$work/crates/$program"
}
