# Builds and runs the examples of a package; sourced by run-c.sh and test.sh, which set `package`.

# The last line that a program said, or all of it where it fails.
run() {
    tells=$1
    shift
    if "$@" >said 2>&1; then
        printf '%s: %s\n' "$tells" "$(tail -n 1 said)"
    else
        status=$?
        cat said
        printf '%s: exit status %s\n' "$tells" "$status"
        exit 1
    fi
}

examples=$package/share/doc/pumdalin/examples
c_examples='figures range text convert host'
rust_examples='figures range convert'

# An example in C, under a name, with what links the library. It is position-independent, and relocations in the code are
# forbidden: the library needs no flag for it.
build_c() {
    source=$1 name=$2
    shift 2
    cc -std=c99 -Wall -Wextra -Wpedantic -Werror -O2 -fPIE -pie -Wl,-z,text -I. "$examples/$source.c" "$@" -o "$name"
}

make_dispense() {
    "$package/bin/pumdalin" make "$examples/listings/firmware/dispense.listing" --c dispense >dispense.h
}
