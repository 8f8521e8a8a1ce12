#!/bin/sh
# Installs nms @VERSION@ below a prefix, or removes it.
#
#     ./install.sh [--prefix DIR] [--destdir DIR]     DIR is /usr/local without --prefix
#     ./install.sh --uninstall [--prefix DIR] [--destdir DIR]
#
# With --destdir the files go below that folder, as for a package that another machine installs. PREFIX/share/nms/INSTALLED lists
# what was installed, and --uninstall removes just that. It needs sh, the coreutils, sed and grep.
set -eu
umask 022
here=$(cd "$(dirname "$0")" && pwd)
prefix=/usr/local destdir='' remove=''
# In an installation this script is PREFIX/share/nms/install.sh.
case $here in */share/nms) prefix=${here%/share/nms} ;; esac

usage() { sed -n '2,9s/^# \{0,1\}//p' "$0"; }
fail() { echo "install.sh: $*" >&2 && exit 1; }
folder() { case ${2-} in '' | -*) usage >&2 && fail "$1 needs a folder" ;; esac; }

while [ $# -gt 0 ]; do
    case $1 in
    --prefix) folder "$@" && prefix=$2 && shift ;;
    --prefix=*) prefix=${1#*=} && folder --prefix "$prefix" ;;
    --destdir) folder "$@" && destdir=$2 && shift ;;
    --destdir=*) destdir=${1#*=} && folder --destdir "$destdir" ;;
    --uninstall) remove=1 ;;
    -h | --help) usage && exit 0 ;;
    *) usage >&2 && exit 2 ;;
    esac
    shift
done
case $prefix in /*) ;; *) prefix=$(pwd)/$prefix ;; esac
prefix=${prefix%/} to=$destdir${prefix%/} list=$destdir${prefix%/}/share/nms/INSTALLED

# take FILE..: removes the files that a list names, then the folders that are empty.
take() {
    while IFS= read -r file; do
        case $file in /* | *..*) continue ;; esac
        rm -f "$to/$file" "$to/$file".nms-[0-9]*
        echo "$file"
    done | sed -n 's:/[^/]*$::p' | sort -ur | while IFS= read -r folder; do
        while [ "$folder" != . ] && rmdir "$to/$folder" 2>/dev/null; do folder=$(dirname "$folder"); done
    done
}

# The system's loader knows the libraries of these folders by name.
known() {
    case $prefix in /usr | /usr/local) [ -n "$destdir" ] || [ "$(id -u)" != 0 ] || ! command -v ldconfig >/dev/null || ldconfig ;; esac
}

if [ -n "$remove" ]; then
    [ -f "$list" ] || fail "there is no $list, so this script installed nothing there"
    files=$(cat "$list")
    # Python leaves what it compiled next to its package.
    rm -rf "$to/share/nms/python/nms/__pycache__"
    printf '%s\n' "$files" share/nms/INSTALLED | take
    known
    echo "removed from $to"
    exit 0
fi

# Where it runs. A folder for another machine is filled on any.
if [ -z "$destdir" ]; then
    [ "$(uname -sm)" = 'Linux x86_64' ] || fail "this is $(uname -sm), and the programs and the library run on Linux on x86-64"
    if grep -q '^flags' /proc/cpuinfo 2>/dev/null && ! grep -qw sse4_1 /proc/cpuinfo; then fail "this processor has no SSE4.1, which the programs and the library need"; fi
fi

cd "$here"
[ -f share/nms/SHA256SUMS ] || fail "$here has no share/nms/SHA256SUMS: run the install.sh of an unpacked release"
[ ! "$to" -ef "$here" ] || fail "$to is the release itself"
sha256sum --quiet -c share/nms/SHA256SUMS || fail "a file is not as it was released, so nothing is installed"
files=$({ sed 's/^[0-9a-f]*  //' share/nms/SHA256SUMS && echo share/nms/SHA256SUMS && find bin lib include share -type l; } | LC_ALL=C sort)
mkdir -p "$to/share/nms"
old=$(cat "$list" 2>/dev/null) || old=''
# If this is interrupted, the list has what was there before and what may be there now, so --uninstall removes both.
printf '%s\n' "$old" "$files" share/nms/install.sh | sed '/^$/d' | LC_ALL=C sort -u >"$list.nms-$$"
mv -f "$list.nms-$$" "$list"
# put FROM TO: a file gets its name when it is whole, so a program that runs goes on with the old one.
put() {
    mkdir -p "$(dirname "$2")"
    cp -P "$1" "$2.nms-$$" || { rm -f "$2.nms-$$" && return 1; }
    if [ ! -h "$1" ]; then if [ -x "$1" ]; then chmod 755 "$2.nms-$$"; else chmod 644 "$2.nms-$$"; fi; fi
    mv -fT "$2.nms-$$" "$2"
}
printf '%s\n' "$files" | while IFS= read -r file; do put "$file" "$to/$file"; done
put install.sh "$to/share/nms/install.sh"
printf '%s\n' "$files" share/nms/install.sh | LC_ALL=C sort >"$list.nms-$$"
# What an older version had and this one has not.
printf '%s\n' "$old" | sed '/^$/d' | LC_ALL=C sort | LC_ALL=C comm -23 - "$list.nms-$$" | take
mv -f "$list.nms-$$" "$list"
known
echo "installed in $to; $to/bin/nms_selftest tests it"
