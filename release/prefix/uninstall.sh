#!/bin/sh
# Removes what install.sh installed: uninstall.sh [--prefix DIR]
#
# Without --prefix, DIR is ~/.local. Directories that install.sh created are removed if they are empty.
set -eu

fail() {
    echo "uninstall.sh: $1" >&2
    exit "${2-1}"
}

case $# in
    0) prefix=${HOME:?}/.local ;;
    2) [ "$1" = --prefix ] && [ -n "$2" ] || fail 'usage: uninstall.sh [--prefix DIR]' 2
        prefix=$2 ;;
    *) fail 'usage: uninstall.sh [--prefix DIR]' 2 ;;
esac
list=$prefix/share/doc/complgen/INSTALLED
[ -r "$list" ] || fail "$list does not exist: nothing was installed there"

installed=$(cat -- "$list")
printf '%s\n' "$installed" | sed -n 's/^file //p' | while IFS= read -r file; do
    rm -f -- "$prefix/$file"
done
rm -f -- "$list"
# The list has each directory after the one that contains it, so the reverse order empties them.
printf '%s\n' "$installed" | sed -n 's/^directory //p' | sed '1!G;h;$!d' | while IFS= read -r directory; do
    rmdir -- "$prefix/$directory" 2>/dev/null || true
done
echo "complgen is removed from $prefix"
echo "Tree files and the lines for live completion in the start files of your shells stay"
