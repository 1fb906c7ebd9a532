#!/bin/sh
# install.sh install PACKAGE PREFIX, or install.sh uninstall PREFIX: the files that the package lists, and no others.
set -eu
umask 022
list=share/pumdalin/files

fail() {
    echo "$1" >&2
    exit 1
}

# The files of a list, which name nothing outside the prefix.
remove_files() {
    for file; do
        case $file in ../* | */../* | /*) fail "$prefix/$list names $file; it is not what was installed" ;; esac
        rm -f "$prefix/$file" || fail "$prefix/$file can't be removed: uninstall as root"
    done
}

install_package() {
    package=$1 prefix=$2
    [ -f "$package/$list" ] || fail "there is no package in $package: run make dist first (it proves, and needs no root)"
    # Another version may have had files that this one has not.
    [ ! -f "$prefix/$list" ] || remove_files $(cat "$prefix/$list")
    while read -r file; do
        mkdir -p "$(dirname "$prefix/$file")" && cp -Pf "$package/$file" "$prefix/$file" ||
            fail "$prefix/$file can't be written: choose another PREFIX, or install as root"
    done <"$package/$list"
    echo "installed in $prefix: $prefix/bin/pumdalin --help"
}

uninstall_package() {
    prefix=$1
    [ -f "$prefix/$list" ] || fail "nothing is installed in $prefix: name the PREFIX and DESTDIR of the installation"
    files=$(cat "$prefix/$list")
    remove_files $files
    find "$prefix/share/pumdalin" -name __pycache__ -type d -prune -exec rm -rf {} +
    # The folders that are the package's own, the inner ones first; others stay.
    cd "$prefix"
    for file in $files; do dirname "$file"; done | LC_ALL=C sort -ru | grep pumdalin | while read -r folder; do
        [ ! -d "$folder" ] || rmdir -p --ignore-fail-on-non-empty "$folder"
    done
    echo "removed from $prefix"
}

case ${1-} in
install) install_package "$2" "$3" ;;
uninstall) uninstall_package "$2" ;;
*) fail 'usage: install.sh install PACKAGE PREFIX | install.sh uninstall PREFIX' ;;
esac
