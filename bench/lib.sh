# What the scripts of this folder share. A script sources it: . "$(dirname "$0")/lib.sh"
# It sets `top`, the repository, and `work`, a folder of the script's own that goes when the script ends.
top=$(cd "$(dirname "${BASH_SOURCE[0]}")/.." && pwd)
work=$(mktemp -d)
trap 'rm -rf "$work"' EXIT

. "$top/tools/crates.sh"

# bench_program NAME LIBRARY..: begins a program of the script's own over these crates and libraries. The script then writes
# $work/crates/NAME/src/main.rt and what proofs it needs.
bench_program() {
    local name=$1 low
    shift
    cp "$top/HANDLES" "$work/"
    for low in "$@"; do
        [ ! -d "$top/crates/$low" ] || take_crates "$top" "$low" "$work" src specs proofs || exit 1
    done
    printf '%s: %s\n' "$name" "$*" >>"$work/crates.txt"
    mkdir -p "$work/crates/$name/src"
}

# run_program NAME: proves and builds the program, which takes some minutes where the repository wasn't built before, since
# only proved code is built, and runs it.
run_program() {
    bash "$top/tools/build.sh" "$1" "$work" || exit 1
    "$work/crates/$1/out/$1"
}

# build_peer: builds bench/peer.rs with cargo, offline where Debian's crates are there (librust-dashmap-dev). It sets `peer`, which is
# empty where there is no cargo or no dashmap.
build_peer() {
    local debian=/usr/share/cargo/registry options=()
    peer=
    command -v cargo >/dev/null || return 0
    mkdir -p "$work/peer/src"
    cp "$top/bench/peer.rs" "$work/peer/src/main.rs"
    cat >"$work/peer/Cargo.toml" <<'TOML'
[package]
name = "peer"
version = "0.1.0"
edition = "2021"

[dependencies]
dashmap = "5"

[profile.release]
panic = "abort"
TOML
    [ ! -d "$debian" ] || options=(--offline --config 'source.crates-io.replace-with="debian"' --config "source.debian.directory=\"$debian\"")
    if (cd "$work/peer" && CARGO_TARGET_DIR=$work/peer/target cargo build --release --quiet "${options[@]}") 2>"$work/cargo.txt"; then
        peer=$work/peer/target/release/peer
    else
        cat "$work/cargo.txt" >&2
    fi
}
