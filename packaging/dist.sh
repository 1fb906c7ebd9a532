#!/bin/sh
# dist.sh FOLDER: lays the package out in a folder that may be moved, from what was proved and built in crates/*/out.
set -eu
umask 022
package=${1:?a folder}
version=$(cat VERSION)
library=libpumdalin.so
compatible=$library.${version%%.*}
archive=crates/exports_c/out/libexports_c.a

# A file with the version put in.
with_version() {
    mkdir -p "$(dirname "$package/$2")"
    sed "s/@VERSION@/$version/g; s/@LIBRARY@/$compatible/g" "$1" >"$package/$2"
}

# The pkg-config file of a name, for the shared or the static library.
pkg_config() {
    with_version packaging/pumdalin.pc.in "lib/pkgconfig/$1.pc"
    sed -i "s|@NAME@|$1|; s|@KIND@|$2|; s|@LIBS@|$3|" "$package/lib/pkgconfig/$1.pc"
}

rm -rf "$package"
install -D -m 644 -t "$package/include" include/pumdalin.h
install -D -m 644 "$archive" "$package/lib/libpumdalin.a"
cc -shared -Wl,--whole-archive "$archive" -Wl,--no-whole-archive -Wl,--version-script=packaging/exports.map \
    -Wl,-soname,"$compatible" -Wl,-z,text -Wl,-z,defs -Wl,-z,noexecstack -o "$package/lib/$library.$version"
ln -s "$library.$version" "$package/lib/$compatible"
ln -s "$compatible" "$package/lib/$library"
pkg_config pumdalin shared '-L${libdir} -lpumdalin'
pkg_config pumdalin-static static '${libdir}/libpumdalin.a'
with_version packaging/pumdalin-config.cmake.in lib/cmake/pumdalin/pumdalin-config.cmake
with_version packaging/pumdalin-config-version.cmake.in lib/cmake/pumdalin/pumdalin-config-version.cmake

install -D -m 755 -t "$package/bin" crates/bound/out/bound
install -D -m 755 command/launcher "$package/bin/pumdalin"
(cd command && find pumdalin -name '*.py') | while read -r module; do
    install -D -m 644 "command/$module" "$package/share/pumdalin/$module"
done
install -D -m 644 -t "$package/share/pumdalin/pumdalin" VERSION
for page in pumdalin bound; do
    with_version "command/$page.1" "share/man/man1/$page.1"
done

documents=share/doc/pumdalin
with_version packaging/README.md "$documents/README.md"
install -m 644 -t "$package/$documents" CHANGELOG.md docs/FORMAT.md docs/LISTINGS.md
(cd examples && find . -type f) | while read -r example; do
    install -D -m 644 "examples/$example" "$package/$documents/examples/$example"
done
(cd "$package" && find . -type f -o -type l | sed 's|^\./||' | LC_ALL=C sort >../pumdalin-files)
mv "$package/../pumdalin-files" "$package/share/pumdalin/files"
echo share/pumdalin/files >>"$package/share/pumdalin/files"
echo "the package is in $package, $(wc -l <"$package/share/pumdalin/files") files; version $version"
