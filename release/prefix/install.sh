#!/bin/sh
# Installs complgen below a directory: install.sh [--prefix DIR]
#
# Without --prefix, DIR is ~/.local. The file share/doc/complgen/INSTALLED lists what was installed,
# and the directories that were created for it. uninstall.sh reads it.
set -eu
umask 022

fail() {
    echo "install.sh: $1" >&2
    exit "${2-1}"
}

case $# in
    0) prefix=${HOME:?}/.local ;;
    2) [ "$1" = --prefix ] && [ -n "$2" ] || fail 'usage: install.sh [--prefix DIR]' 2
        prefix=$2 ;;
    *) fail 'usage: install.sh [--prefix DIR]' 2 ;;
esac
case $prefix in
    /*) ;;
    *) prefix=$PWD/$prefix ;;
esac
cd -- "$(dirname -- "$0")"
list=share/doc/complgen/INSTALLED
made=''

# Tells whether an earlier run installed a file.
is_ours() {
    [ -e "$prefix/$list" ] && grep -qxF -- "file $1" "$prefix/$list"
}

# Creates a directory below the prefix, and the missing ones above it.
make_directory() {
    [ ! -d "$prefix/$1" ] || return 0
    case $1 in
        */*) make_directory "${1%/*}" ;;
    esac
    mkdir -- "$prefix/$1"
    made="${made}directory $1
"
}

while IFS= read -r file; do
    [ ! -e "$prefix/$file" ] || is_ours "$file" ||
        fail "$prefix/$file exists, and this script did not install it: nothing was installed"
done <FILES

mkdir -p -- "$prefix"
if [ -e "$prefix/$list" ]; then
    # An update: files that this version does not have are removed, and directories are kept.
    made=$(grep "^directory " -- "$prefix/$list" || true)
    made=${made:+$made
}
    sed -n 's/^file //p' -- "$prefix/$list" | grep -vxFf FILES | while IFS= read -r file; do
        rm -f -- "$prefix/$file"
    done
fi
while IFS= read -r file; do
    make_directory "${file%/*}"
done <FILES
# The list is written first, so that uninstall.sh can also remove half of an installation.
{
    printf %s "$made"
    sed 's/^/file /' FILES
} >"$prefix/$list.new"
mv -f -- "$prefix/$list.new" "$prefix/$list"
while IFS= read -r file; do
    cp -- "$file" "$prefix/$file.new"
    mv -f -- "$prefix/$file.new" "$prefix/$file"
done <FILES
echo "complgen is installed below $prefix"
case :${PATH-}: in
    *:"$prefix/bin":*) ;;
    *) echo "Add $prefix/bin to your PATH, to call complgen by its name" ;;
esac
