#!/bin/sh
# Whether what `make install` puts into a prefix serves C, Python and Rust from anywhere: tests/install.sh, in library/.
set -eu
library=$(pwd)
work=$(mktemp -d)
trap 'rm -rf "$work"' EXIT
prefix=$work/prefix
make --no-print-directory --silent install PREFIX="$prefix" PYTHON="${PYTHON:-python3}" 2> "$work/said"
cd "$work"
export PKG_CONFIG_PATH="$prefix/lib/pkgconfig"
[ "$(pkg-config --modversion misere)" = "$(cat "$library/../VERSION")" ]

# C, over the shared library and over the archive
flags=$(pkg-config --cflags --libs misere)
# shellcheck disable=SC2086
cc "$library/example.c" $flags -o shared
# shellcheck disable=SC2086
cc "$library/example.c" $flags -static -o static
for tool in ./shared ./static; do
    [ "$(echo 2 1000000000000 | $tool "$library/../certificates/0.75.mqc")" = "7 P lost" ]
done

# Python, as the word on standard error says
folder=$(cd "$prefix"/lib/python*/*-packages && pwd)
grep -q "set PYTHONPATH=$folder" said
PYTHONPATH=$folder "${PYTHON:-python3}" -B -c 'import misere
assert misere.solve("0.33").outcome([2, 10**12]) == "N" and misere.__version__ != "unknown"
assert misere.Catalogue()["Kayles"].code == "0.77"
assert misere.InfiniteCatalogue()["0.354"].outcome([2, 4] + 7 * [5]) == "P"
assert misere.InfiniteCatalogue()["0.26"].outcome([2, 10**15]) == "P"
assert misere._library.library._name.endswith("/prefix/lib/libmisere.so.1")'

# Rust, by pkg-config
cargo init --quiet --vcs none --name asks asks
printf 'misere = { path = "%s/share/misere/rust" }\n' "$prefix" >> asks/Cargo.toml
cat > asks/src/main.rs << 'END'
fn main() -> Result<(), Box<dyn std::error::Error>> {
    println!("{:?}", misere::Quotient::solve("0.33", misere::Bounds::default())?.outcome(&[2, 1_000_000_000_000])?);
    Ok(())
}
END
[ "$(cd asks && env -u MISERE_LIB_DIR cargo run --quiet --offline)" = N ]
rm -r asks/target
if (cd asks && env -u MISERE_LIB_DIR PKG_CONFIG_PATH=/nowhere cargo build --quiet --offline 2> ../said); then exit 1; fi
grep -q "libmisere was not found. Set MISERE_LIB_DIR" said
echo "what is installed serves C, Python and Rust"
