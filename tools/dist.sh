#!/bin/sh
# Makes hlasm_ls-VERSION-linux-x86_64.tar.gz, with the program as it was built, hlasm-lint, hlasm-debug, the clients, the pages for
# users and a README: all that a machine without the kit needs. Usage: tools/dist.sh [FOLDER], where the tarball goes (default:
# dist).
set -eu
top=$(cd "$(dirname "$0")/.." && pwd)
target=${1:-$top/dist}
version=$(cat "$top/VERSION")
name=hlasm_ls-$version-linux-x86_64
work=$(mktemp -d)
trap 'rm -rf "$work"' EXIT
root=$work/$name
mkdir -p "$root/docs" "$root/examples" "$target"
"$top/tools/install.sh" "$root/bin" > "$work/said"
parts='clients examples'
for file in $(cd "$top" && git ls-files $parts 2> "$work/said" || (cd "$top" && find $parts -type f)); do
    case $file in
        clients/hlasm-lint | clients/hlasm-debug) ;;
        *) install -D -m 644 "$top/$file" "$root/$file" ;;
    esac
done
for page in USER EDITORS PIPELINE INSTRUCTIONS; do install -m 644 "$top/docs/$page.md" "$root/docs/"; done
install -m 644 "$top/VERSION" "$root/"
sed "s/VERSION/$version/" "$top/tools/dist-readme.txt" > "$root/README"
tar -C "$work" --sort=name --owner=0 --group=0 --numeric-owner --mtime=@0 -cf - "$name" | gzip -n > "$target/$name.tar.gz"
echo "$target/$name.tar.gz"
