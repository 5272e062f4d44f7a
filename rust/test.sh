#!/usr/bin/env bash
# All outside tests: the library from C and Rust, against the second implementation. Quiet but for the counts;
# fails if anything fails. It needs rt, a C compiler and cargo, and makes libkiosk.a and list where they are not there.
set -euo pipefail
cd "$(dirname "$0")"
log=$(mktemp) made=$(mktemp)
trap 'rm -f "$log" "$made"' EXIT
quietly() {
    "$@" >"$log" 2>&1 || {
        cat "$log"
        exit 1
    }
}
if cargo fmt --version >"$log" 2>&1; then
    quietly cargo fmt --check
fi
# The archive takes a proof of its own: what does not need it is built and run meanwhile.
[ -e ../target/staticlib/libkiosk.a ] || ../tools/archive >"$made" 2>&1 &
archive=$!
quietly cargo test --offline --package reference
quietly diff <(cargo run --quiet --offline --package reference --bin vectors) ../crates/vectors/stdout
wait "$archive" || {
    cat "$made"
    exit 1
}
quietly cargo build --offline --workspace --all-targets
quietly cargo test --offline --package kiosk --package bench
quietly cargo run --offline --package kiosk --example red
# The script at the root. The first run may have something to build; the second has not, and says nothing of its own.
script() {
    local status=0
    ../kiosk list ../samples/two-frames.spool || return 1
    diff <(../kiosk list ../samples/two-frames.spool 2>&1) ../samples/two-frames.txt || return 1
    ../kiosk list /dev/null || status=$?
    [ "$status" -eq 1 ]
}
quietly script
# The program list, as the tests of the listing run it.
listing_program() {
    (cd ../crates/list && rt run <stdin) || return 1
    mkdir -p ../target/bin
    cp ../crates/list/out/list ../target/bin/list
}
quietly listing_program
quietly cargo test --offline --package outside --test c_interface --test listing
cargo test --offline --quiet --package outside --test against_reference
