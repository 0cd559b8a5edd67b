# What the scripts share, for bash. A script sets `me`, with which its messages begin, and stands in the repository's top
# where it proves.

LEAST_RUSTC=1.77 # for array::each_mut (bench/main.rs); LocalKey::set (tests/compare) is of 1.73

say() {
  echo "$me: $*" >&2
}

die() {
  say "$*"
  exit 1
}

# skip WHY: what was asked for cannot be run here
skip() {
  say "not run: $*"
  exit 3
}

# need COMMAND WHAT: what a script cannot do without
need() {
  command -v "$1" >/dev/null || die "the command $1 ($2) is not on the PATH"
}

# crates_of NAME: the crate, and those of the repository that it is made of
crates_of() {
  local crate
  for crate in "$1" $(sed -n -E "s/^$1( staticlib)?: //p" crates.txt); do
    if [ -d "crates/$crate" ]; then echo "crates/$crate"; fi
  done
}

# sources_of NAME: the files that a crate is made of, without what rt keeps in out/
sources_of() {
  find crates.txt $(crates_of "$1") -name out -prune -o -type f -print | sort
}

# is_made NAME PRODUCT: the files are those of which the crate was proved and the product made, and none has changed since
is_made() {
  local files
  [ -e "$2" ] && [ -e "target/$1.proved" ] && files=$(sources_of "$1") && [ "$files" = "$(cat "target/$1.files" 2>/dev/null)" ] &&
    [ -z "$(find $files -newer "target/$1.proved" -print -quit)" ]
}

# tell_progress: passes on what rt says, a line for each crate that it has proved; of a crate that it had proved before it says nothing
tell_progress() {
  local line crate=
  while IFS= read -r line; do
    case $line in
      'crate '*': '*) crate=${line#crate } && crate=${crate%%:*} ;;
      'logic=proved'*) say "proved: $crate" ;;
    esac
  done
}

# prove NAME COMMAND..: the command proves the crate and what it is made of
prove() {
  local name=$1 log=target/$1.log count
  shift
  need rt "the Rattle toolchain"
  count=$(crates_of "$name" | wc -l)
  say "proving $count crates, which takes some minutes; what is proved already is not proved again"
  sources_of "$name" > "target/$name.files"
  touch "target/$name.new"
  if ! "$@" </dev/null 2>&1 | tee "$log" | tell_progress; then
    tail -n 20 "$log" >&2
    die "not proved; $log has all that rt said"
  fi
  mv "target/$name.new" "target/$name.proved"
}

# library NAME: proves a crate and makes its static library, target/staticlib/libNAME.a
library() {
  mkdir -p target/staticlib
  (cd "crates/$1" && rt lib) && cp "crates/$1/out/lib$1.a" target/staticlib/
}

# program NAME: proves a crate and makes its program, target/bin/NAME, by running it once on no input
program() {
  mkdir -p target/bin
  (cd "crates/$1" && rt run) && cp "crates/$1/out/$1" target/bin/
}

# made NAME PRODUCT COMMAND..: the product of a proved crate is there and new. One script at a time proves.
made() {
  local name=$1 product=$2
  shift 2
  if is_made "$name" "$product"; then return; fi
  mkdir -p target
  exec 9>target/lock
  flock -n 9 || { say "waiting for another script that is proving here" && flock 9; }
  is_made "$name" "$product" || prove "$name" "$@"
  exec 9>&-
}

# the proved crates as a library for C
static_library() {
  made geusomin target/staticlib/libgeusomin.a library geusomin
}

# What builds the Rust original needs its source and a rustc that is new enough.
need_rust() {
  local file version
  [ -n "${SOURCE:-}" ] || skip "SOURCE=FOLDER has to name a clone of solabi-rs, the Rust original (README.md has the command)"
  for file in src/abi/declaration.rs src/abi.rs src/value.rs; do
    [ -f "$SOURCE/$file" ] || skip "there is no $file in SOURCE=$SOURCE"
  done
  command -v rustc >/dev/null || skip "the command rustc is not on the PATH"
  version=$(rustc --version 2>/dev/null | cut -d ' ' -f 2)
  [ "$(printf '%s\n' "$LEAST_RUSTC" "$version" | sort -V | head -n 1)" = "$LEAST_RUSTC" ] || skip "rustc ${version:-without a version} is older than $LEAST_RUSTC"
  need cc "a C compiler, by which rustc links"
}
