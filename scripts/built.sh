# Shared by scripts/run, scripts/native and scripts/trust; to be sourced by bash.
# shellcheck shell=bash

root=$(cd "$(dirname "${BASH_SOURCE[0]}")/.." && pwd -P)
me=$(basename "$0")
command -v rt >/dev/null || {
    echo "$me: the command rt is not here: install the Rattle kit that README.md names, and put its bin/ on PATH" >&2
    exit 2
}
kit=$(dirname "$(rt doc)")

# The line of crates.txt for a crate, without its comment: NAME, 'staticlib' where it is an archive, a colon, and the libraries that it uses.
row() { # NAME
    sed -n "s/#.*//; /^$1[ \t:]/p" "$root/crates.txt"
}

is_program() { # NAME
    [ -f "$root/crates/$1/src/main.rt" ]
}

# Proves and builds a program or an archive with rt, where something changed since, and leaves the path of what was built in $built.
# ONIONSAIL_PROVED=1 says that rt ci has just passed over these very files (.ci/run sets it): then nothing is proved twice.
build() { # NAME
    local name=$1 folder=$root/crates/$1 log=$root/target/rt-$1.log
    mkdir -p "$root/target"
    if is_program "$name"; then built=$folder/out/$name; else built=$folder/out/lib$name.a; fi
    if [ -n "${ONIONSAIL_PROVED:-}" ]; then
        # rt ci leaves the programs that it built. An archive it proves and does not build: that is done over the libraries that it leaves, but for
        # a checkout where rt check was at work before, whose libraries rt ci puts back. Those have a stamp, and rt lib knows which still stand.
        if is_program "$name"; then
            [ ! -x "$built" ] || return 0
        elif ! compgen -G "$root/crates/*/out/rlib/stamp" >/dev/null && compile "$name" "$kit/toolchain" "$built" >"$log" 2>&1; then
            return 0
        fi
    fi
    [ -e "$built" ] || echo "$me: proving and building $name, which takes some minutes the first time" >&2
    if is_program "$name"; then
        # rt run builds a program and runs it, here on no input: with that line in the log it was built, whatever the program's own status.
        (cd "$folder" && rt run </dev/null) >"$log" 2>&1 || grep -q "^rt: running out/$name" "$log" || not_built "$name" run
    else
        (cd "$folder" && rt lib </dev/null) >"$log" 2>&1 || not_built "$name" lib
    fi
}

not_built() { # NAME WORD
    tail -5 "$root/target/rt-$1.log" >&2
    echo "$me: $1 was not built, as only a proved crate is: run 'rt $2' in crates/$1 and mend what it names; target/rt-$1.log has all that was printed" >&2
    exit 1
}

# The kit's compiler, called as rt calls it, over the libraries that rt left in crates/*/out/rlib: an archive, or a program's object file.
compile() { # NAME TOOLCHAIN OUT
    local name=$1 file=src/lib.rt words=() dep folder
    if is_program "$name"; then file=src/main.rt; else words=(--crate-type staticlib); fi
    for dep in std $(row "$name" | sed 's/^[^:]*://'); do
        folder=$kit/rlibs
        [ ! -d "$root/crates/$dep/src" ] || folder=$root/crates/$dep/out/rlib
        words+=(--extern "$dep=$folder/$dep.rlib")
    done
    for folder in "$kit/rlibs" "$root"/crates/*/out/rlib; do
        words+=(-L "dependency=$folder")
    done
    mkdir -p "$root/crates/$name/out"
    (cd "$root/crates/$name" && "$kit/bin/rattle" build --crate-name "$name" "$file" "${words[@]}" \
        --antt-project "$kit/rattle/logic/antt-project.json" --logic-built "$kit/logic_built" --jobs 2 --toolchain "$2" --backend llvm -o "$3")
}
