# For the measurements of whole sessions: the program, built, is $server; $bench is this folder, and $work one that goes with the script.
top=$(cd "$(dirname "$0")/.." && pwd)
bench=$top/bench
server=$top/crates/hlasm_ls/out/hlasm_ls
work=$(mktemp -d)
trap 'rm -rf "$work"' EXIT
cd "$top/crates/hlasm_ls"
"$top/tools/build.py" hlasm_ls > "$work/built" || { cat "$work/built" >&2; exit 1; }
