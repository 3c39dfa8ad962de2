# Read by the scripts that measure a program over crates of this repository (`. "$(dirname "$0")/program.sh"`). `program NAME DEPENDENCIES`
# copies the repository into a folder of its own, $work, which is gone when the script ends, lists the program there, and takes its main.rt
# from standard input; the folder of its crate is then the current one. A checkout whose libraries are built is copied with them.
work=$(mktemp -d)
trap 'rm -rf "$work"' EXIT
program() {
    top=$(cd "$(dirname "$0")/.." && pwd)
    # (links where they can be made: rt removes a file before it writes it anew, so what is linked stays as it is)
    cp -rl "$top/crates" "$work/" 2>/dev/null || cp -r "$top/crates" "$work/"
    cp "$top/crates.txt" "$top/HANDLES" "$work/"
    mkdir -p "$work/crates/$1/src"
    echo "$1: $2" >> "$work/crates.txt"
    cat > "$work/crates/$1/src/main.rt"
    cd "$work/crates/$1"
}
