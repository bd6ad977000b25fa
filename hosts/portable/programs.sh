# The programs beside this file, which are compiled for the machine at hand where they are needed.
# shellcheck shell=bash

# Compiles erase or check, once for each compiler and each state of its text. Sets `program` to the path.
host_program() { # RUSTC NAME
    local here=$top/hosts/portable programs=$portable/programs folder
    program=$programs/$2-$(cat <("$1" -vV) "$here/$2.rs" "$here/head.rs" | sha256sum | cut -c 1-12)
    [ ! -x "$program" ] || return 0
    mkdir -p "$programs"
    folder=$(mktemp -d "$programs/work.XXXXXX")
    "$1" --edition 2021 -C opt-level=1 -o "$folder/$2" "$here/$2.rs"
    mv "$folder/$2" "$program"
    rm -rf "$folder"
}
