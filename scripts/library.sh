#!/bin/sh
# Proves the crate `capi` and the crates below it, and writes the static library, target/staticlib/libcapi.a.
here=$(CDPATH='' cd -- "$(dirname "$0")/.." && pwd -P) || exit 2
cd "$here/crates/capi" && rt lib && mkdir -p "$here/target/staticlib" && cp out/libcapi.a "$here/target/staticlib/libcapi.a"
