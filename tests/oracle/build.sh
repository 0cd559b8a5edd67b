#!/usr/bin/env bash
# Builds the oracle: a program that answers as the Rust original does.
# Usage: SOURCE=FOLDER [OUT=FOLDER] ./build.sh
#   SOURCE  the Rust source, a folder that has src/abi/declaration.rs
#   OUT     where to build (default: target/oracle in the repository's top)
# declaration.rs is used byte for byte. abi.rs and value.rs are cut mechanically:
# markers and a filter only drop serde, hashing, imports and the parts not needed.
# Prints the program's path. Exit status 3: the Rust source or a rustc that is new enough is not at hand.
set -euo pipefail
me=tests/oracle/build.sh
HERE=$(cd "$(dirname "$(readlink -f "$0")")" && pwd)
TOP=$(cd "$HERE/../.." && pwd)
OUT=${OUT:-$TOP/target/oracle}
. "$TOP/tools/common.sh"

need_rust

DECLARATION="$SOURCE/src/abi/declaration.rs"
ABI="$SOURCE/src/abi.rs"
VALUE="$SOURCE/src/value.rs"

# The original.
take_declaration() {
  cp "$DECLARATION" "$OUT/plain/abi/declaration.rs"
  cmp "$DECLARATION" "$OUT/plain/abi/declaration.rs"
}

# The original with only the two panicking slices of with_context replaced: a
# second crate, asked for number and position where the original panics.
patch_declaration() {
  sed -e 's|let pre = &s\[start\.\.self\.pos\];|let pre = String::from_utf8_lossy(\&s.as_bytes()[start..self.pos]);|' \
      -e 's|let post = &s\[self\.pos\.\.end\];|let post = String::from_utf8_lossy(\&s.as_bytes()[self.pos..end]);|' \
      "$DECLARATION" > "$OUT/patched/abi/declaration.rs"
  test "$(diff "$DECLARATION" "$OUT/patched/abi/declaration.rs" | grep -c '^>')" = 2
}

# value.rs: the kinds, their formatter and reader, and the two sorts of number.
cut_value() {
  sed -n '/^use std::{$/,/^};$/p' "$VALUE"
  echo
  sed -n '/^\/\/\/ The kind of the Solidity value\.$/,/^\/\/\/ An signed integer with the specified width\.$/p' "$VALUE" | sed '$d'
  sed -n '/^\/\/\/ A fixes byte array length\.$/,/^\/\/\/ A dynamic value for representing Solidity fixed bytes type\.$/p' "$VALUE" | sed '$d'
}

# abi.rs without serde, JSON and hashing (the `selector` methods and their helpers).
cut_abi() {
  sed -e '/^mod json;$/d' \
      -e 's|^use crate::{function::Selector, primitive::Word, value::ValueKind};$|use crate::value::ValueKind;|' \
      -e '/^use ethprim::Hasher;$/d' \
      -e '/^use serde::/d' \
      -e 's|, Write as _};$|};|' \
      -e '/^#\[serde(.*)\]$/d' \
      -e '/^#\[derive(/s/, Deserialize, Serialize//' \
      -e '/^    \/\/\/ Computes the selector the error type\.$/,/^    }$/d' \
      -e '/^fn selector(/,/^}$/d' \
      -e '/^fn topic(/,/^}$/d' \
      "$ABI"
}

compile() {
  rustc --edition 2021 -O -Adead_code -Aunused_imports "$@"
}

mkdir -p "$OUT/plain/abi" "$OUT/patched/abi"
take_declaration
patch_declaration
for crate in plain patched; do
  cut_value > "$OUT/$crate/value.rs"
  cut_abi > "$OUT/$crate/abi.rs"
  printf 'pub mod abi;\npub mod value;\n' > "$OUT/$crate/lib.rs"
  compile --crate-type rlib --crate-name "$crate" -o "$OUT/lib$crate.rlib" "$OUT/$crate/lib.rs"
done
compile --extern plain="$OUT/libplain.rlib" --extern patched="$OUT/libpatched.rlib" \
  -o "$OUT/oracle" "$HERE/main.rs"
echo "$OUT/oracle"
