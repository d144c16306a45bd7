# Shared by scripts/differential and scripts/sample; to be sourced by bash.
# shellcheck shell=bash disable=SC2034

# The kinds of cases that program `answers` answers today (docs and oracle/README.md
# say what each is). No other kind is asked of it.
KINDS=${KINDS:-1,2,3,4,5,6,7,8,9,10,11}

root=$(cd "$(dirname "${BASH_SOURCE[0]}")/.." && pwd -P)

# Builds the Rust side and leaves its path in $oracle. Without cargo there is no
# Rust to compare with: that is status 3, which is not a failed comparison.
build_oracle() {
    if ! command -v cargo >/dev/null; then
        echo "$(basename "$0"): cargo is not at hand, so the Rust side cannot be built: nothing was compared" >&2
        exit 3
    fi
    "$root/scripts/check-upstream" >&2 || exit 2
    if ! cargo build --quiet --release --offline --manifest-path "$root/oracle/Cargo.toml" --target-dir "$root/target/oracle"; then
        echo "$(basename "$0"): the Rust side does not build" >&2
        exit 2
    fi
    oracle=$root/target/oracle/release/oracle
}
