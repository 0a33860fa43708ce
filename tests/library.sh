# shellcheck shell=sh disable=SC2154,SC2034
# Sourced by the run scripts, with $root set: how to build against the library and how to start what was built.
#   compile OUTPUT SOURCE..     builds a program with the library's side
#   $start PROGRAM WORD..       runs it
# SELF=1 takes the plain implementation for the library's side, SELF="SOURCE.." what these sources have. LIBRARY names another archive, CFLAGS other flags.

build=$(mktemp -d)
trap 'rm -rf "$build"' EXIT
start=
compiler=${CC:-gcc}
flags=${CFLAGS:--O2}

if [ -n "${SELF:-}" ]; then
  library=$SELF
  [ "$SELF" != 1 ] || library=$root/tests/plain/self.c
else
  library=${LIBRARY:-$root/target/staticlib/libexporter.a}
  if [ -z "${LIBRARY:-}" ] && [ ! -f "$library" ]; then
    (cd "$root/crates/exporter_c" && rt lib </dev/null >&2)
    mkdir -p "${library%/*}"
    cp "$root/crates/exporter_c/out/libexporter_c.a" "$library"
  fi
  if [ "$(uname -m)" != x86_64 ]; then # the archive is for x86-64 alone
    compiler=x86_64-linux-gnu-gcc
    flags="$flags -static"
    start=$(command -v qemu-x86_64 || command -v qemu-x86_64-static)
  fi
fi

compile() {
  output=$1
  shift
  # shellcheck disable=SC2086
  $compiler -std=c11 $flags -Wall -Wextra -Werror -o "$output" "$@" $library
}
