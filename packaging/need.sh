#!/bin/sh
# need.sh TARGET TOOL..: whether the tools that a target needs are there. It is asked before anything is proved.
set -eu
target=$1
shift
missing=
for tool; do
    command -v "$tool" >/dev/null 2>&1 || missing="$missing $tool"
done
[ -n "$missing" ] || exit 0
echo "make $target needs what is not here:$missing" >&2
for tool in $missing; do
    if [ "$tool" = rt ]; then
        echo "rt is the command of the Rattle kit, which is installed apart from this repository: put its folder bin on the path" >&2
    else
        setup="make setup installs what comes from Debian's packages"
    fi
done
[ -z "${setup-}" ] || echo "$setup" >&2
exit 1
