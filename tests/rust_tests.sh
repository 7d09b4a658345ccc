#!/usr/bin/env bash
# The Rust packages: the bindings with the example of docs/LIBRARY.md, and the differential tests of every exported
# function. Clippy finds nothing in either, where it is installed.
# Needs target/staticlib/libcapi.a and target/bin/compare. Writes to each package's own target/ alone. Prints one line
# for each package, or all that cargo says of one that fails.
set -euo pipefail
cd "$(dirname "$0")/.."
for built in target/staticlib/libcapi.a target/bin/compare; do
    if [ ! -f "$built" ]; then
        echo "rust_tests: $built is missing; run 'tools/build staticlib capi' and 'tools/build check compare'" >&2
        exit 1
    fi
done
unset CARGO_TARGET_DIR LESKWYN_LIB_DIR

# Runs cargo in a package, and prints what it says only if it fails.
quietly() { # PACKAGE COMMAND WORDS..
    local package=$1 command=$2
    shift 2
    if ! said=$(cd "$package" && cargo "$command" --quiet --offline --locked --release "$@" 2>&1); then
        printf '%s\nrust_tests: %s failed in cargo %s\n' "$said" "$package" "$command" >&2
        exit 1
    fi
}

for package in bindings bench; do
    quietly "$package" test
    passed=$(printf '%s\n' "$said" | awk '/^test result: ok\./ { sum += $4 } END { print sum + 0 }')
    if [ "$passed" -eq 0 ]; then
        echo "rust_tests: $package ran no test" >&2
        exit 1
    fi
    if cargo clippy --version >/dev/null 2>&1; then
        quietly "$package" clippy --all-targets -- -D warnings
    fi
    echo "rust_tests: $package, $passed tests passed"
done
quietly bindings run --example distance
if [ "$said" != 'distance 2' ]; then
    echo "rust_tests: the example printed '$said' in place of 'distance 2'" >&2
    exit 1
fi
echo "rust_tests: the example printed '$said'"
