# What runs programs for x86-64: the machine itself, or on another processor compilers and an emulator, which are installed where they
# are missing. A script that sources this file has `$machine`, which says on what, the commands `${c[@]}`, `${cpp[@]}` and `${rust[@]}`
# that compile for it, and `${emulate[@]}` before a program's name.
# shellcheck shell=bash disable=SC2034 # for the scripts that source it
machine='x86-64'
c=(gcc)
cpp=(g++)
rust=(rustc)
emulate=()

if [ "$(uname -m)" != x86_64 ]; then
    machine="$(uname -m), emulating x86-64"
    packages=(rustc libstd-rust-dev:amd64 gcc-x86-64-linux-gnu g++-x86-64-linux-gnu libc6-dev:amd64 qemu-user)
    if ! dpkg -s "${packages[@]}" >/dev/null 2>&1; then
        echo "installing ${packages[*]}" >&2
        if [ "$(id -u)" = 0 ]; then as_root=(env); else as_root=(sudo); fi
        {
            "${as_root[@]}" dpkg --add-architecture amd64
            "${as_root[@]}" apt-get update
            "${as_root[@]}" DEBIAN_FRONTEND=noninteractive apt-get install -y --no-install-recommends "${packages[@]}"
        } >&2
    fi
    c=(x86_64-linux-gnu-gcc -static)
    cpp=(x86_64-linux-gnu-g++ -static)
    # Debian's own compiler has the library for x86-64 beside it; another one that stands first in the path may not
    rust=(/usr/bin/rustc --target x86_64-unknown-linux-gnu -C target-feature=+crt-static -C relocation-model=static
        -C linker=x86_64-linux-gnu-gcc)
    # this processor has no fast string copy, which the emulator would do byte by byte: copies would take twenty times as long
    emulate=(qemu-x86_64 -cpu Nehalem)
fi
