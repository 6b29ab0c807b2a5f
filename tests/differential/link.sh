# Links Rust programs with the library's archive, for x86-64. A script that sources this file has `link SOURCE`, which builds a
# program, and `run_linked ARGUMENT...`, which runs it; `$machine` says on what.
# shellcheck shell=bash
source "$(dirname -- "${BASH_SOURCE[0]}")/../../bin/common.sh"
source "$root/tests/machine.sh"
ready_archive

link() {
    linked="$root/target/linked/$(basename "$1" .rs)"
    mkdir -p "$root/target/linked"
    "${rust[@]}" --edition 2021 -C opt-level=3 "$root/$1" -L "$root/target/staticlib" -l static=arbac -o "$linked"
}

run_linked() {
    "${emulate[@]}" "$linked" "$@"
}
