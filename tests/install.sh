#!/usr/bin/env bash
# Installs into a folder of its own, and compiles and runs programs in C, C++ and Fortran against what is there, found
# by pkg-config. Says `installed` if all is as it should be.
set -euo pipefail
cd "$(dirname "$0")/.."

fail() {
  echo "install: $1" >&2
  exit 1
}

work=$(mktemp -d)
trap 'rm -rf "$work"' EXIT
prefix="$work/usr"
make --silent install PREFIX="$prefix"

export PKG_CONFIG_PATH="$prefix/lib/pkgconfig"
export LD_LIBRARY_PATH="$prefix/lib"
version=$(pkg-config --modversion hpf-remap)
grep -q "define HPF_VERSION_TEXT \"$version\"" "$prefix/include/hpf_remap.h" || fail "pkg-config says $version, the header does not"
[ "$("$prefix/bin/hpf" --version)" = "hpf $version" ] || fail "hpf --version does not say $version"

# The shared library: its name, what it exports, what it needs.
soname=$(readelf -dW "$prefix/lib/libremap.so" | sed -n 's/.*SONAME.*\[\(.*\)\]/\1/p')
[ "$soname" = "libremap.so.${version%.*}" ] || fail "the soname is $soname"
[ -e "$prefix/lib/$soname" ] || fail "$soname is missing"
readelf -dW "$prefix/lib/libremap.so" | grep -q TEXTREL && fail "the shared library's code is relocated"
exported=$(nm -D --defined-only "$prefix/lib/libremap.so" | awk '{ print $3 }' | sort | tr '\n' ' ')
[ "$exported" = "hpf_convert hpf_plan hpf_rounds hpf_run hpf_text hpf_version " ] || fail "exported: $exported"

# Programs, shared and static.
read -ra cflags <<<"$(pkg-config --cflags hpf-remap)"
read -ra libs <<<"$(pkg-config --libs hpf-remap)"
module=$(pkg-config --variable=fortran hpf-remap)
gcc -std=c11 -Wall -Wextra -Werror -pedantic -O2 "${cflags[@]}" tests/install/plan.c "${libs[@]}" -o "$work/shared"
gcc -std=c11 -O2 "${cflags[@]}" tests/install/plan.c "$prefix/lib/libremap.a" -o "$work/static"
g++ -x c++ -Wall -Wextra -Werror "${cflags[@]}" tests/install/plan.c "${libs[@]}" -o "$work/plus"
gfortran -std=f2008 -Wall -Wextra -Werror -O2 -J"$work" "$module" tests/install/plan.f90 "${libs[@]}" -o "$work/fortran"
gfortran -fdefault-integer-8 -J"$work" -c "$module" -o "$work/wide.o" # whatever kind `size` gives

"$prefix/bin/hpf" bytes examples/routines/p.hpf >"$work/p"
"$prefix/bin/hpf" bytes examples/routines/t.hpf >"$work/t"
for program in shared static plus fortran; do
  [ "$("$work/$program" "$work/p")" = DRNR ] || fail "$program does not plan P"
  [ "$("$work/$program" "$work/t" || true)" = "a reference or a call is ambiguous" ] || fail "$program does not refuse T"
done

# The texts of refusals are the same in C and Fortran.
"$work/shared" | sed '$d' >"$work/texts"
"$work/fortran" | sed '$d' | diff "$work/texts" - || fail "the texts of refusals differ"
[ "$(wc -l <"$work/texts")" -ge 21 ] || fail "texts of refusals are missing"

# The programs that were installed.
(cd "$work" && "$prefix/bin/planner" <p | diff - <("$prefix/bin/hpf" plan p)) || fail "planner and hpf plan differ"
"$prefix/bin/hpf" bytes examples/routines/p.path >"$work/path"
cp "$work/p" "$work/routine"
(cd "$work" && "$prefix/bin/runner" | diff - <("$prefix/bin/hpf" run routine path)) || fail "runner and hpf run differ"
"$prefix/bin/converter" <examples/directives/figure-10.hpfd | cmp - <("$prefix/bin/hpf" convert examples/directives/figure-10.hpfd) ||
  fail "converter and hpf convert differ"

make --silent uninstall PREFIX="$prefix"
[ -z "$(find "$prefix" -type f -o -type l)" ] || fail "uninstall leaves files"
echo installed
