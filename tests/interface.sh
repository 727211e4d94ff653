#!/usr/bin/env bash
# What others link: the header alone as C and C++, the example both ways and from an installation, one version for all of
# it, the Rust bindings.
# Run after `make` and `make target/bin/lister`; SWISTOPAL_LIB_DIR and LISTER name others. Prints what fails, exit 1 then.
set -euo pipefail
cd "$(dirname "$0")/.."
export SWISTOPAL_LIB_DIR="${SWISTOPAL_LIB_DIR:-$PWD/target/lib}"
export LISTER="${LISTER:-target/bin/lister}"
export PATH="$PATH:$HOME/.cargo/bin"

for needed in "$SWISTOPAL_LIB_DIR/libswistopal.a" "$LISTER"; do
    [ -f "$needed" ] || { echo "interface: no $needed; 'make' and 'make target/bin/lister' make it" >&2; exit 1; }
done
folder=$(mktemp -d)
trap 'rm -rf "$folder"' EXIT

strict=(-Wall -Wextra -Wpedantic -Werror)
as_c=(-std=c11 -x c)
as_cpp=(-std=c++17 -x c++)
link=(-x none "$SWISTOPAL_LIB_DIR/libswistopal.a")

passed() { echo "interface: $1"; }

# The header twice, to try its guard; alone, to see that it includes what it needs.
printf '#include "swistopal.h"\n#include "swistopal.h"\n' > "$folder/header"
for compiler in gcc clang; do
    command -v "$compiler" > /dev/null || continue
    "$compiler" "${as_c[@]}" "${strict[@]}" -Wstrict-prototypes -Iinclude -fsyntax-only "$folder/header"
    passed "header as C11, $compiler"
done
for compiler in g++ clang++; do
    command -v "$compiler" > /dev/null || continue
    "$compiler" "${as_cpp[@]}" "${strict[@]}" -Iinclude -fsyntax-only "$folder/header"
    passed "header as C++17, $compiler"
done

gcc "${as_c[@]}" "${strict[@]}" -Iinclude examples/store.c "${link[@]}" -o "$folder/example-c"
"$folder/example-c" | diff examples/store.stdout -
passed "example as C11"
g++ "${as_cpp[@]}" "${strict[@]}" -Iinclude examples/store.c "${link[@]}" -o "$folder/example-cpp"
"$folder/example-cpp" | diff examples/store.stdout -
passed "example as C++17"

# Given archive and lister, only the tool is to be built.
make --silent install PREFIX="$folder/prefix" SWISTOPAL_LIB_DIR="$SWISTOPAL_LIB_DIR" LISTER="$LISTER"
for installed in include/swistopal.h lib/libswistopal.a lib/pkgconfig/swistopal.pc bin/lister bin/swistopal \
    share/man/man1/swistopal.1 share/bash-completion/completions/swistopal; do
    [ -f "$folder/prefix/$installed" ] || { echo "interface: $installed is not installed" >&2; exit 1; }
done
export PKG_CONFIG_PATH="$folder/prefix/lib/pkgconfig"
read -ra flags <<< "$(pkg-config --cflags --libs swistopal)"
cp examples/store.c "$folder/store.c"
(cd "$folder" && gcc -std=c11 "${strict[@]}" store.c "${flags[@]}" -o example-installed)
"$folder/example-installed" | diff examples/store.stdout -
passed "example from an installation, by pkg-config"

version=$(pkg-config --modversion swistopal)
[ "$("$folder/prefix/bin/swistopal" --version)" = "swistopal $version" ] ||
    { echo "interface: the tool is not of version $version" >&2; exit 1; }
for naming in bindings/rust/Cargo.toml cli/swistopal.1 CHANGELOG.md; do
    grep -qF "$version" "$naming" || { echo "interface: $naming does not name version $version" >&2; exit 1; }
done
passed "one version, $version"

cargo test --quiet --offline --manifest-path bindings/rust/Cargo.toml
passed "Rust bindings"
