#!/bin/sh
# Puts hlasm_ls, as it was built, hlasm-lint, which then knows its version, and hlasm-debug into a folder, and says whether that
# is on the PATH. Usage: tools/install.sh FOLDER [FOLDER-AS-IT-WILL-BE], the second where the first is only staged.
set -eu
top=$(cd "$(dirname "$0")/.." && pwd)
folder=$1
final=${2:-$folder}
program=$top/crates/hlasm_ls/out/hlasm_ls
if [ ! -x "$program" ]; then
    echo "install: there is no program $program: make run builds it" >&2
    exit 1
fi
install -d "$folder"
install -m 755 "$program" "$folder/hlasm_ls"
sed "s/^VERSION = \"\"\$/VERSION = \"$(cat "$top/VERSION")\"/" "$top/clients/hlasm-lint" > "$folder/hlasm-lint"
chmod 755 "$folder/hlasm-lint"
install -m 755 "$top/clients/hlasm-debug" "$folder/hlasm-debug"
echo "hlasm_ls, hlasm-lint and hlasm-debug $(cat "$top/VERSION") are in $final"
case ":$PATH:" in
    *":$final:"*) echo "That is on your PATH." ;;
    *) echo "That is not on your PATH. Add it, in ~/.profile: PATH=\"$final:\$PATH\"" ;;
esac
