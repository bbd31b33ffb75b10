# Sourced by the scripts beside it: builds a program over the store and the journal in a scratch copy.
# Sets top, scratch, which goes at the end, and program; `build NAME` reads the program's main.rt from standard input. It
# proves what it builds: a minute or two where the three crates were checked here before, some minutes where not.
top=$(cd "$(dirname "${BASH_SOURCE[0]}")/.." && pwd)
scratch=$(mktemp -d)
trap 'rm -rf "$scratch"' EXIT

build() {
    local name=$1 crate
    mkdir -p "$scratch/crates/$name/src"
    cat >"$scratch/crates/$name/src/main.rt"
    for crate in swf_text swf_store swf_journal; do
        mkdir -p "$scratch/crates/$crate"
        cp -r "$top/crates/$crate/"{src,specs,proofs} "$scratch/crates/$crate/"
        if [ -d "$top/crates/$crate/out" ]; then cp -r "$top/crates/$crate/out" "$scratch/crates/$crate/"; fi
    done
    {
        grep -E '^swf_(text|store|journal):' "$top/crates.txt"
        echo "$name: swf_journal swf_store anyhow"
    } >"$scratch/crates.txt"
    cp "$top/HANDLES" "$scratch/HANDLES"
    for crate in swf_text swf_store swf_journal; do
        (cd "$scratch/crates/$crate" && rt check) >"$scratch/log" 2>&1 || { tail -n 5 "$scratch/log"; exit 1; }
    done
    # The program is run once, with no words, which it refuses.
    (cd "$scratch/crates/$name" && rt run) >"$scratch/log" 2>&1 || true
    program=$scratch/crates/$name/out/$name
    [ -x "$program" ] || { tail -n 5 "$scratch/log"; exit 1; }
}
