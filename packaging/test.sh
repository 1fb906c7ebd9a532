#!/bin/sh
# test.sh PACKAGE: tries a copy of the package that stands elsewhere: the examples in C, C++ and Rust, natively and under
# valgrind, with both libraries, over pkg-config and CMake; the two programs; installing and uninstalling. The compilers work in
# an empty folder and pkg-config sees that copy alone, so nothing that the package lacks can come from the repository.
set -eu
repository=$(pwd)
work=$(mktemp -d)
trap 'rm -rf "$work"' EXIT
cp -R "${1:?the folder that make dist made}" "$work/moved package"
package="$work/moved package"
. packaging/examples.sh
mkdir "$work/build"
cd "$work/build"

# pkg-config takes no folder with a space in its name, so its files are found through a link.
ln -s "$package" "$work/moved"
export PKG_CONFIG_LIBDIR="$work/moved/lib/pkgconfig"
unset PKG_CONFIG_PATH
printf 'pumdalin %s\n' "$(pkg-config --modversion pumdalin)"
under_valgrind='valgrind --quiet --error-exitcode=99 --leak-check=full --errors-for-leak-kinds=definite'

test_c() {
    make_dispense
    for example in $c_examples; do
        build_c $example $example-static $(pkg-config --cflags --libs pumdalin-static)
        build_c $example $example-shared $(pkg-config --cflags --libs pumdalin) -Wl,-rpath,"$package/lib"
        run "$example.c" ./$example-static
        run "$example.c, shared" ./$example-shared
        run "$example.c, under valgrind" $under_valgrind ./$example-static
    done
    ! ./host-static 65536 2>said || { echo 'host.c: 65,536 colorants were answered'; exit 1; }
    grep -q 'refused 100' said
}

# The header alone, as C++.
test_cpp() {
    printf '#include <pumdalin.h>\nint main() { return *pumdalin_words(pumdalin_figures(nullptr, 0, 0, 0, 0, 0, 1, nullptr, 0)) != %s; }\n' "'t'" >header.cpp
    c++ -std=c++17 -Wall -Wextra -Wpedantic -Werror header.cpp $(pkg-config --cflags --libs pumdalin-static) -o header
    ./header
    echo 'the header as C++: good'
}

test_rust() {
    for example in $rust_examples; do
        rustc --edition 2021 -O -D warnings "$examples/$example.rs" -L native="$package/lib" -l static=pumdalin -o $example-rust
        run "$example.rs" ./$example-rust
        run "$example.rs, under valgrind" $under_valgrind ./$example-rust
    done
}

test_cmake() {
    mkdir cmake
    cat >cmake/CMakeLists.txt <<-END
	cmake_minimum_required(VERSION 3.13)
	project(host C)
	find_package(pumdalin $(pkg-config --modversion pumdalin) REQUIRED)
	add_executable(shared "$examples/text.c")
	target_link_libraries(shared pumdalin::pumdalin)
	add_executable(static "$examples/text.c")
	target_link_libraries(static pumdalin::static)
	END
    cmake -S cmake -B cmake/build -DCMAKE_PREFIX_PATH="$package" >said && cmake --build cmake/build >>said || { cat said; exit 1; }
    run 'CMake, shared' cmake/build/shared
    run 'CMake, static' cmake/build/static
    sed -i 's/find_package(pumdalin [^ ]*/find_package(pumdalin 999.0/' cmake/CMakeLists.txt
    ! cmake -S cmake -B cmake/newer -DCMAKE_PREFIX_PATH="$package" >said 2>&1 || { echo 'CMake took version 999'; exit 1; }
    echo 'CMake, a version that is not there: refused'
}

# The exported functions of the shared library are those of the header and no others.
test_exports() {
    objdump -T "$package/lib/libpumdalin.so" | sed -n 's/.* g .*\.text.* \([a-z_]*\)$/\1/p' | sort >exported
    sed -n 's/^uint32_t \(pumdalin_[a-z_]*\)(.*/\1/p' "$package/include/pumdalin.h" | sort | diff - exported
    printf 'exported: %s\n' "$(tr '\n' ' ' <exported)"
}

bound() {
    "$package/bin/pumdalin" make --input "$examples/listings/firmware/dispense.listing" | "$@" "$package/bin/bound" >printed &&
        diff printed "$examples/dispense.output" && echo 'as the worked example says'
}

# Every command of a README, those after a $, in the folder in which it says that they are run.
test_readme() {
    folder=$1 readme=$2
    sed -n 's/^    \$ //p' "$readme" >"$work/build/commands"
    (cd "$folder" && PATH="$package/bin:$PATH" sh -e "$work/build/commands") >said 2>&1 || { cat said; echo "$readme"; exit 1; }
    printf "the commands of %s: %s run\n" "$(basename "$folder")/README.md" "$(wc -l <"$work/build/commands")"
}

test_command() {
    (cd "$repository" && PUMDALIN="$package/bin/pumdalin" PYTHONDONTWRITEBYTECODE=1 \
        python3 -m unittest discover -s command/tests -t command) >said 2>&1 || { cat said; exit 1; }
    printf 'the command: %s tests\n' "$(sed -n 's/^Ran \([0-9]*\) tests.*/\1/p' said)"
}

test_install() {
    make -s -C "$repository" install DESTDIR="$work/root" PREFIX=/opt/one >said
    run 'installed' "$work/root/opt/one/bin/pumdalin" "$examples/listings/firmware/dispense.listing"
    touch "$work/root/opt/one/lib/other"
    # Another version's file, which installing again takes away.
    echo lib/libpumdalin.so.0.0.1 >>"$work/root/opt/one/share/pumdalin/files"
    touch "$work/root/opt/one/lib/libpumdalin.so.0.0.1"
    make -s -C "$repository" install DESTDIR="$work/root" PREFIX=/opt/one >said
    [ ! -e "$work/root/opt/one/lib/libpumdalin.so.0.0.1" ]
    make -s -C "$repository" uninstall DESTDIR="$work/root" PREFIX=/opt/one >said
    left=$(cd "$work/root/opt/one" && find . -type f -o -type l -o -name '*pumdalin*')
    [ "$left" = ./lib/other ] || { echo "left after uninstalling: $left"; exit 1; }
    ! make -s -C "$repository" uninstall DESTDIR="$work/root" PREFIX=/opt/one >said 2>&1
    grep -q 'nothing is installed' said
    echo 'installed and uninstalled: no file is left'
}

test_c
test_cpp
test_rust
test_cmake
test_exports
run 'bound' bound
run 'bound, under valgrind' bound $under_valgrind
test_readme "$package/share/doc/pumdalin" "$package/share/doc/pumdalin/README.md"
test_readme "$repository" "$repository/README.md"
test_command
test_install
