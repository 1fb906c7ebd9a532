#!/bin/sh
# Installs what the targets need beyond the Rattle kit, from Debian's packages. The gate needs none of it.
set -eu
packages='binutils cmake g++ gcc libc6-dev pkg-config python3 rustc valgrind'
if ! command -v apt-get >/dev/null 2>&1; then
    echo "make setup installs Debian's packages, and apt-get is not here; install what corresponds to: $packages" >&2
    exit 1
fi
if [ "$(id -u)" -ne 0 ]; then
    echo 'make setup installs packages, which takes root: sudo make setup' >&2
    exit 1
fi
apt-get update
DEBIAN_FRONTEND=noninteractive apt-get install -y --no-install-recommends $packages
