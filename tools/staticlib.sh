#!/usr/bin/env bash
# Proves the library for C and Rust and builds it, crate saltdelta_c, and puts it at target/staticlib/libsaltdelta.a.
set -eu
cd "$(dirname "$0")/.."
(cd crates/saltdelta_c && rt lib)
mkdir -p target/staticlib
cp crates/saltdelta_c/out/libsaltdelta_c.a target/staticlib/libsaltdelta.a
