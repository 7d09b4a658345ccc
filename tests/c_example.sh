#!/usr/bin/env bash
# The C examples of docs/LIBRARY.md: the compile line of each, as it stands on the page, and what the program prints.
# The header also compiles as C++, where there is a C++ compiler.
set -euo pipefail
cd "$(dirname "$0")/.."
library=target/staticlib/libcapi.a
if [ ! -f "$library" ]; then
    echo "c_example: $library is missing; run 'tools/build staticlib capi'" >&2
    exit 1
fi

# Compiles a program by its line of the page, and compares what it prints.
prints() { # PROGRAM TEXT
    local line printed
    line=$(grep "^    cc .* -o target/$1\$" docs/LIBRARY.md)
    printed=$(bash -euc "$line && target/$1")
    if [ "$printed" != "$2" ]; then
        echo "c_example: $1 printed '$printed' in place of '$2'" >&2
        exit 1
    fi
}

prints distance 'distance 2'
prints canonical_copy '3 4 0 0 1 1 0 65535 1 2'
prints exchange_tallies '2 0 0 0 4 0 0 0 0 0 4'
if command -v c++ >/dev/null; then
    c++ -Wall -Wextra -Werror -Iinclude -x c++ -fsyntax-only include/leskwyn.h
fi
echo "c_example: passed"
