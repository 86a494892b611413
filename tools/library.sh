#!/usr/bin/env bash
# Builds the static library of include/zed.h, target/staticlib/libzed.a: the crate zed_c's.
set -eu
cd "$(dirname "$0")/.."
(cd crates/zed_c && rt lib)
mkdir -p target/staticlib
cp crates/zed_c/out/libzed_c.a target/staticlib/libzed.a
