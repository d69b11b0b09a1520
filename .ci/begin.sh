# shellcheck shell=bash
# What every script here begins with, for it to find the same wherever the clone stands and whoever runs it: the repository's top for
# its folder, one language for messages, order and ranges of letters, and none of the settings of other builds.
export LC_ALL=C.UTF-8
unset CDPATH DESTDIR MARKET_RISK_LIB_DIR CARGO_TARGET_DIR CARGO_BUILD_TARGET_DIR CARGO_BUILD_TARGET
cd -- "$(dirname -- "${BASH_SOURCE[0]}")/.."
top=$PWD
# The Rust crates that do without the library.
alone=(books fast second)
