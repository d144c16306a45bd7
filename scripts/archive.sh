# Shared by scripts/host, scripts/bench and scripts/differential-archive; to be sourced by bash.
# shellcheck shell=bash

root=$(cd "$(dirname "${BASH_SOURCE[0]}")/.." && pwd -P)
me=$(basename "$0")

# Without cargo none of the Rust side can be built: that is status 3, which is not a failure of what is tested.
need_cargo() { # WHAT WAS NOT DONE
    if ! command -v cargo >/dev/null; then
        echo "$me: cargo is not at hand, so the Rust side cannot be built: $1" >&2
        exit 3
    fi
}

# Builds libabi.a, which ships, and names its folder in ONIONSAIL_LIB_DIR. It is the archive of crate abi_c, under the name that the host
# links. Where the variable is set already, that folder's archive is taken as it is.
build_archive() {
    if [ -n "${ONIONSAIL_LIB_DIR:-}" ]; then
        echo "$me: taking $ONIONSAIL_LIB_DIR/libabi.a, which ONIONSAIL_LIB_DIR names" >&2
        return
    fi
    ONIONSAIL_LIB_DIR=$root/target/staticlib
    export ONIONSAIL_LIB_DIR
    "$root/scripts/native" abi_c "$ONIONSAIL_LIB_DIR/libabi.a" || exit 2
}
