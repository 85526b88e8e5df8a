#!/usr/bin/env bash
# Builds and tries what other programs use: the Rust crate, libtuppence.so, its Python module and the LADSPA plugin.
# The static library must be there (tools/library.sh). Needs cargo, cc with the sanitizers, and python3.
set -euo pipefail
cd "$(dirname "$0")/.."
command -v cargo >/dev/null || PATH="$HOME/.cargo/bin:$PATH"
model=host/model/house.rnn shared=target/shared/release made=target/bindings
mkdir -p "$made"

# The Rust crate: its tests, and the examples of its documentation.
(cd bindings/rust && cargo test --release --offline --locked --target-dir ../../target/rust)

# The shared library, and bad calls from C. The sanitizers see what C lends; the library is as it is shipped.
(cd bindings/shared && cargo test --release --offline --locked --target-dir ../../target/shared)
(cd bindings/shared && cargo build --release --offline --locked --target-dir ../../target/shared)
# (no link: rt ci refuses links, in target/ too)
cp "$shared/libtuppence.so" "$shared/libtuppence.so.1"
cc -std=c11 -Wall -Wextra -Werror -O1 -g -fsanitize=address,undefined -fno-sanitize-recover=all -Ibindings/c \
    -o "$made/boundary" bindings/c/boundary.c -L"$shared" -ltuppence -lm -lpthread -Wl,-rpath,"$PWD/$shared"
"$made/boundary" "$model"
# The example gives the same samples with the shared and with the static library.
example=(cc -std=c11 -Wall -Wextra -Werror -O2 -Ibindings/c bindings/c/clean_a_second.c)
"${example[@]}" -o "$made/with_shared" -L"$shared" -ltuppence -Wl,-rpath,"$PWD/$shared"
"${example[@]}" -o "$made/with_static" target/staticlib/libexport.a
"$made/with_shared" "$model" | cmp - <("$made/with_static" "$model")

# Python, with and without numpy.
(cd bindings/python && python3 -m unittest -q)

# The plugin.
(cd bindings/ladspa && cargo test --release --offline --locked --target-dir ../../target/ladspa)
(cd bindings/ladspa && cargo build --release --offline --locked --target-dir ../../target/ladspa)

# The examples of docs/EMBEDDING.md, as they are printed there; and the README's, which is a doctest of the Rust crate.
example_in() {
    awk -v fence="\`\`\`$1" '$0 == fence { inside = 1; next } /^```/ { inside = 0 } inside' "${2:-docs/EMBEDDING.md}"
}
example_in rust README.md | while IFS= read -r line; do
    grep -qxF "//! $line" bindings/rust/src/lib.rs && continue
    echo "README.md: not in the doctest of bindings/rust: $line"
    exit 1
done
example_in c >"$made/example.c"
cc -std=c11 -Wall -Wextra -Werror -Ibindings/c -o "$made/example" "$made/example.c" \
    -L"$shared" -ltuppence -Wl,-rpath,"$PWD/$shared"
"$made/example"
mkdir -p "$made/example_rust/src"
cat >"$made/example_rust/Cargo.toml" <<END
[workspace]
[package]
name = "example"
version = "0.1.0"
edition = "2021"
[dependencies]
tuppence = { path = "$PWD/bindings/rust" }
END
example_in rust >"$made/example_rust/src/main.rs"
cargo run --quiet --release --offline --manifest-path "$made/example_rust/Cargo.toml" --target-dir target/rust
example_in python >"$made/example.py"
PYTHONPATH=bindings/python python3 "$made/example.py"
