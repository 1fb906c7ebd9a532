#!/bin/sh
# run-c.sh PACKAGE: builds the examples in C with the package's static library, and runs them.
set -eu
package=$(cd "${1:?the folder that make dist made}" && pwd)
. packaging/examples.sh
mkdir -p target/run-c
cd target/run-c
make_dispense
for example in $c_examples; do
    build_c "$example" "$example" -I"$package/include" "$package/lib/libpumdalin.a"
    run "$example" "./$example"
done
