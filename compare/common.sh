# Sourced by run, differences, sample and bench/run: where things are, what is missing, how to build.

here=$(cd "$(dirname "${BASH_SOURCE[0]}")" && pwd)
root=$(dirname "$here")
built=$here/target
# The script that runs, by its path from the root: its messages begin with it.
script=$(cd "$(dirname "$0")" && pwd)/$(basename "$0")
script=${script#"$root"/}

# Of algesten/dimpl at e79f0d8e46, by their paths below its src: they are not in this repository.
files=(
    window.rs
    timer.rs
    crypto/dtls_aead.rs
    crypto/provider.rs
    dtls13/engine.rs
    dtls13/incoming.rs
    dtls13/message/handshake.rs
    dtls13/message/record.rs
)

missing=0
features=()

say() {
    echo "$script: $1" >&2
}

# Says what is missing, and goes on to the next check.
lacks() {
    say "$1"
    missing=1
}

# Cargo, the two packages and the Rust's files.
check_rust() {
    command -v cargo >/dev/null ||
        lacks "cargo is missing: install Rust 1.90 or later"
    local package
    for package in nom arrayvec; do
        if [ -z "$(crates_of "$package")" ]; then
            lacks "the package librust-$package-dev is missing: apt-get install librust-$package-dev"
        fi
    done
    source=${DIMPL_SRC:-}
    if [ -z "$source" ]; then
        source=$root/docs/src
        [ -d "$source" ] || source=$root/../shared/docs/src
    fi
    local file absent=()
    for file in "${files[@]}"; do
        [ -f "$source/$file" ] || absent+=("$file")
    done
    if [ ${#absent[@]} -gt 0 ]; then
        lacks "missing in $source: ${absent[*]}; the Rust's eight files are those of algesten/dimpl at e79f0d8e46, below its src\
 (compare/README.md): set DIMPL_SRC to the folder that holds them"
    fi
}

# What makes the libraries and programs that the environment does not name by these variables.
check_rattle() {
    local variable
    for variable in "$@"; do
        if [ -z "${!variable:-}" ] && ! command -v rt >/dev/null; then
            lacks "rt is missing: install the Rattle kit, or set $variable"
        fi
    done
}

# The folder of crates that a Debian package is in.
crates_of() {
    dpkg -L "librust-$1-dev" 2>/dev/null | sed -n "s|/$1-[^/]*/Cargo.toml\$||p"
}

stop_if_missing() {
    [ "$missing" = 0 ] || exit 2
}

# Runs a command and shows its output only if it fails.
quietly() {
    mkdir -p "$built"
    if ! "$@" >"$built/log" 2>&1; then
        cat "$built/log" >&2
        say "failed: $1 $2; $built/log has what it wrote"
        exit 2
    fi
}

# Runs rt in a crate's folder, says which crates it has proved as it goes, and shows all that it wrote if it fails. A program that rt runs
# has no input.
proving() {
    mkdir -p "$built"
    if ! (cd "$root/crates/$2" && rt "$1" </dev/null) 2>&1 | tee "$built/log" |
        awk '/^crate / { crate = $2 } /^logic=proved / { sub(":", "", crate); print "rt: " crate " proved"; fflush() }' >&2; then
        cat "$built/log" >&2
        say "failed: rt $1 in crates/$2; $built/log has what it wrote"
        exit 2
    fi
}

# Names what is to be compared, whole: what the environment names, or what rt makes of a crate.
name() {
    local made=$root/crates/$2/out/$4
    if [ -n "${!1:-}" ]; then
        made=$(realpath "${!1}")
    else
        say "proving and building ${made#"$root"/} (rt $3 in crates/$2), which takes minutes the first time"
        proving "$3" "$2"
    fi
    export "$1=$made"
}

# The library that hosts link: what is built links it too.
link_library() {
    library=$("$root/include/library") || exit 2
    HUSKELAPSE_LIB=$(realpath "$(dirname "$library")")
    export HUSKELAPSE_LIB
    features=(--features library)
}

# Builds programs.
build() {
    local file copy bins=()
    say "building $* (cargo build), which takes about a minute the first time"
    for file in "${files[@]}"; do
        copy=$built/dimpl/$file
        if ! cmp -s "$source/$file" "$copy"; then
            mkdir -p "$(dirname "$copy")"
            cp --no-preserve=all "$source/$file" "$copy"
        fi
    done
    # A lock from other versions of the packages would stop an offline build.
    rm -f "$here/Cargo.lock"
    for file in "$@"; do
        bins+=(--bin "$file")
    done
    quietly cargo build --release --offline "${bins[@]}" "${features[@]}" \
        --manifest-path "$here/Cargo.toml" --target-dir "$built" \
        --config 'source.crates-io.replace-with="debian"' \
        --config "source.debian.directory=\"$(crates_of nom)\""
}
