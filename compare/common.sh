# What the scripts of this folder share. Sourced by bash; needs `here`, this folder.

root=$(cd "$here/.." && pwd -P)
. "$root/build.sh"
build=${COMPARE_BUILD:-$root/target/compare}
program=$(basename "$0")

die() {
    printf '%s: %s\n' "$program" "$*" >&2
    exit 2
}

# Installs the Debian packages that are missing.
install_packages() { # PACKAGE...
    local missing=() p
    for p in "$@"; do
        dpkg-query -W -f '${Status}' "$p" 2>/dev/null | grep -q 'ok installed' || missing+=("$p")
    done
    [ ${#missing[@]} -gt 0 ] || return 0
    [ "$(id -u)" = 0 ] || die "these packages are missing, and only root can install them: ${missing[*]}"
    apt-get update >&2 && apt-get install -y --no-install-recommends "${missing[@]}" >&2
}

# Copies our projects to the build folder, where cargo may write, and sets the words for cargo; `rust` is the folder
# of the programs that it builds for release.
prepare_rust() { # SOURCES
    local f
    for f in packet.rs error.rs sacn_parse_pack_error.rs receive.rs; do
        [ -f "$1/$f" ] || die "$1 has no $f: SOURCES is the folder of the crate's sources"
    done
    command -v cargo >/dev/null || die "cargo and rustc are needed"
    SACN_SOURCES=$(cd "$1" && pwd -P)
    export SACN_SOURCES
    # The definition that says which kind of the crate's errors each of our numbers stands for.
    export REFUSAL_KINDS=$root/crates/demands/specs/Kinds.antt
    # The paper whose datagrams are asked, too.
    export DIFFERENCES=$root/docs/DIFFERENCES.md
    install_packages librust-byteorder-dev librust-uuid-dev librust-thiserror-dev librust-socket2-dev
    # Debian lays the sources of its crates where cargo can take them in place of crates.io.
    local registry
    registry=$(dpkg -L librust-byteorder-dev | sed -n 's|/byteorder-[0-9.]*$||p' | head -n 1)
    [ -d "$registry" ] || die "librust-byteorder-dev has no folder of sources"
    cargo_words=(--offline --config 'source.crates-io.replace-with="debian"'
        --config "source.debian.directory=\"$registry\"")
    rust=$build/rust/release
    project=$build/project/compare
    mkdir -p "$project" "$build/project/rust"
    cp -Rp "$here/Cargo.toml" "$here/sacn" "$here/judge" "$here/edge-speed" "$project/"
    cp -Rp "$root/rust/Cargo.toml" "$root/rust/build.rs" "$root/rust/src" "$build/project/rust/"
}

# Has cargo do something in a folder.
run_cargo() { # FOLDER COMMAND WORDS...
    (cd "$1" && cargo "${cargo_words[@]}" "$2" --target-dir "$build/rust" "${@:3}")
}

# Builds our Rust programs that link no Rattle code.
build_rust() { # SOURCES
    prepare_rust "$1"
    run_cargo "$project" build --release || die "the Rust side was not built"
}

need_rt() {
    command -v rt >/dev/null || die "rt, the command of the Rattle kit, is needed"
}

# Proves and builds the Rattle programs, as crates/NAME/out/NAME.
build_rattle() { # NAME...
    local name
    need_rt
    for name in "$@"; do
        [ -d "$root/crates/$name" ] || die "the repository has no crates/$name"
        build_program "$name" || die "$name was not proved, or did not print what crates/$name/stdout has"
    done
}

# Proves and builds what Rust and C link, and says where it is.
build_archive() {
    need_rt
    "$root/staticlib" || die "the Rattle side was not proved"
    export LEDGERWREN_LIB_DIR=$root/target/staticlib
}

# Says on what machine something is timed, and by which compiler the Rust was built.
tell_machine() { # WHAT
    echo "This machine is $(uname -m): $1 run on its processor, the Rust by $(rustc --version), opt-level 3."
}
