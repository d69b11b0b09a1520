# shellcheck shell=bash
# What ./charge and ./install share, for both to source: the proved library and the tool, built where they are missing or old.
# $top is the repository, $name the script.

archive=$top/target/staticlib/libmarket_risk.a
tool=$top/target/rust/release/market-risk
log=$top/target/$name.log

say() { printf '%s: %s\n' "$name" "$*" >&2; }
fail() { say "$@"; exit 2; }
misused() { [ $# -eq 0 ] || say "$@"; echo "$usage" >&2; exit 2; }

# Whether no source is newer than the archive. Folders count: a removed source is a change. What rt
# keeps in out/ is no source.
newest() {
    local newer
    newer=$(find "$top/crates" "$top/crates.txt" -path "$top/crates/*/out" -prune \
        -o -newer "$archive" -print -quit) && [ -z "$newer" ]
}

# A checksum of the sources.
sources() {
    find "$top/crates" "$top/crates.txt" -path "$top/crates/*/out" -prune \
        -o -type f -exec cksum {} + | sort | cksum
}

# Whether the archive has the calls; an empty one and one that was cut off do not.
whole() {
    [ -s "$archive" ] || return 1
    command -v nm >/dev/null || return 0
    case $(nm "$archive" 2>/dev/null) in *' market_risk_charge'*) ;; *) return 1 ;; esac
}

# Tells of each crate as it is proved, and what rt says itself, and leaves the prover's text to the
# log.
crate_by_crate() {
    local line crate=
    while IFS= read -r line; do
        case $line in
        'rt: chose '*) ;;
        'rt: '*) say "${line#rt: }" ;;
        'crate '*) crate=${line#crate } crate=${crate%%:*} ;;
        logic=proved*) say "$crate proved" ;;
        esac
    done
}

# Proves and builds the library; a run that does not come to its end leaves none.
prove() {
    local before
    command -v rt >/dev/null || fail "rt, the Rattle toolchain, is not in PATH"
    say "proving and building the library first, which takes some minutes; the prover's text goes to $log"
    mkdir -p "$top/target"
    before=$(sources)
    trap 'rm -f "$archive"' EXIT
    "$top/scripts/library" 2>&1 | tee "$log" | crate_by_crate ||
        fail "the library is not proved and built; $log says why"
    whole || fail "rt left no whole library; $log has what it said"
    [ "$(sources)" = "$before" ] || fail "crates/ changed while it was proved; run again"
    trap - EXIT
}

# Builds the library, unless it is whole and no source is newer, and the tool.
build() {
    command -v cargo >/dev/null || fail "cargo is not in PATH"
    { whole && newest; } || prove
    # The settings of other builds could link another library or put the tool elsewhere.
    unset MARKET_RISK_LIB_DIR CARGO_BUILD_TARGET
    (cd "$top/rust" && cargo build --release --offline --quiet --bin market-risk --target-dir "$top/target/rust" </dev/null) ||
        fail "the command could not be built"
}
