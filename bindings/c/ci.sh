#!/usr/bin/env bash
# Tests the C interface, the header and the archive, with every C and C++ compiler that is here. The archive is that of the directory
# MAYBENOT_ARCHIVE_DIR, else of crates/sender/out.
set -euo pipefail
cd "$(dirname "$0")/../.."
out=$(mktemp -d)
trap 'rm -rf "$out"' EXIT
warnings="-O2 -Wall -Wextra -Werror -pedantic -Ibindings/c"
archives=${MAYBENOT_ARCHIVE_DIR:-crates/sender/out}
link="-L$archives -lsender"

fail() { echo "bindings/c: $*"; exit 1; }

# has COMMAND ..: whether it compiles, links and runs
has() {
  echo 'int main(void) { return 0; }' > "$out/has.c"
  "$@" "$out/has.c" -o "$out/has" 2> /dev/null && "$out/has"
}

# What the header declares is what the Rattle declares, and what is recorded of the interface's version; no version has the
# record of another.
check_layout() {
  local record=bindings/c/layout/$version.txt other
  cc -std=c11 $warnings bindings/c/layout.c $link -o "$out/layout"
  "$out/layout" | diff "$record" - || fail "the header is not of version $version: raise it, here, in the header, in sender and in sys.rs, or record what was only added"
  tools/layout | diff "$record" - || fail "the Rattle is not of version $version"
  for other in bindings/c/layout/*.txt; do
    [ "$other" = "$record" ] || ! cmp -s "$other" "$record" || fail "$other and $record are the same"
  done
}

# check_compiler COMMAND ..: the tests, and in C the example sender, with sanitizers where they are
check_compiler() {
  local sanitizers="-fsanitize=address,undefined -fno-sanitize-recover=all"
  has "$1" $sanitizers || sanitizers=""
  "$@" $warnings $sanitizers bindings/c/test.c $link -o "$out/test"
  "$out/test" | diff crates/linkrun/stdout - || fail "test.c by $*"
  tried="$tried${tried:+, }$1${sanitizers:+ with sanitizers}"
  [[ $1 != *++ ]] || return 0
  "$@" $warnings $sanitizers bindings/c/example/sender.c $link -o "$out/sender"
  "$out/sender" 2 5000 > "$out/log" || { tail -n 3 "$out/log"; fail "the example by $*"; }
}

check_compilers() {
  local compiler tried=""
  for compiler in gcc clang; do ! command -v $compiler > /dev/null || check_compiler $compiler -std=c11; done
  for compiler in g++ clang++; do ! command -v $compiler > /dev/null || check_compiler $compiler -std=c++11 -xc++; done
  [ -n "$tried" ] || check_compiler cc -std=c11
  echo "bindings/c: the worked example, refused calls, helpers, draws from words, ended machines, due lists, sheets and the example sender are as they should be ($tried)"
}

# must_not_link FLAGS: test.c with a header of another version
must_not_link() {
  ! cc -std=c11 "$@" "$out/other/test.c" $link -o "$out/test" 2> "$out/log" || fail "a header of another version links ($*)"
  grep -q "undefined.*maybenot_interface_$((version + 1))" "$out/log" || { cat "$out/log"; fail "refused, but not for its version"; }
}

# A header of another version does not link, whatever the linker leaves out; an event's number in a row is warned of.
check_mistakes() {
  mkdir "$out/other"
  sed "s/^#define MAYBENOT_INTERFACE .*/#define MAYBENOT_INTERFACE $((version + 1))/" bindings/c/maybenot.h > "$out/other/maybenot.h"
  sed '/MAYBENOT_INTERFACE_NAME()/d' bindings/c/test.c > "$out/other/test.c"
  must_not_link -O0
  must_not_link -O2 -ffunction-sections -fdata-sections -Wl,--gc-sections
  sed 's/MAYBENOT_ON_TIMER_END/MAYBENOT_TIMER_END/' bindings/c/test.c > "$out/mixed.c"
  ! cc -std=c11 $warnings "$out/mixed.c" $link -o "$out/mixed" 2> "$out/log" || fail "an event's number passes for a row's"
  grep -q "enum maybenot_on" "$out/log" || { cat "$out/log"; fail "refused, but not for its type"; }
  echo "bindings/c: a header of another version does not link, and an event's number in a row is warned of"
}

# Installed, by plain flags and by Make.
check_install() {
  tools/install "$out/prefix" > "$out/log" 2>&1 || { cat "$out/log"; fail "tools/install"; }
  cc -std=c11 -O2 -I"$out/prefix/include" bindings/c/example/sender.c -L"$out/prefix/lib" -lsender -o "$out/sender"
  "$out/sender" > "$out/plain" || fail "the example, installed"
  if ! command -v make > /dev/null || ! command -v pkg-config > /dev/null; then
    echo "bindings/c: installed, and linked by plain flags; make or pkg-config is not here"
    return
  fi
  cp -r bindings/c/example "$out/example"
  rm -f "$out/example/sender"
  make --silent -C "$out/example" PKG_CONFIG_PATH="$out/prefix/lib/pkgconfig" sender
  "$out/example/sender" | diff "$out/plain" - || fail "the example by Make"
  echo "bindings/c: installed, and linked by plain flags and by Make with pkg-config"
}

# What README.md says: the C in it is the example's, and what the archive needs of others.
check_readme() {
  local block needs
  block=$(sed -n '/^```c$/,/^```$/p' README.md | sed '1d;$d')
  [ -n "$block" ] && [[ "$(cat bindings/c/example/sender.c)" == *"$block"* ]] || fail "the C in README.md is not the example's"
  needs=$(nm --undefined-only "$archives/libsender.a" | awk '$1 == "U" { print $2 }' | sort | xargs)
  [ "$needs" = "memcpy memset" ] || fail "the archive needs $needs"
}

if ! command -v cc > /dev/null; then
  echo "bindings/c: no C compiler is here, nothing was tested"
  exit 0
fi
version=$(sed -n 's/^#define MAYBENOT_INTERFACE //p' bindings/c/maybenot.h)
check_layout
check_compilers
check_mistakes
check_install
check_readme
