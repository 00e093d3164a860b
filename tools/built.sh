# Sourced at the repository's root by the tools that build: whether a file was built by this kit from these very sources.
# FILE.known beside it has the digest of the sources that it was built from, and its own.
kit=$(dirname "$(readlink -f "$(command -v rt)")")/..
sources=$({
  cat "$kit/KIT-ID"
  find crates.txt crates/*/src crates/*/specs crates/*/proofs -type f -exec sha256sum {} + | LC_ALL=C sort
} | sha256sum)

digests() { echo "$sources $(sha256sum < "$1")"; }
is_built() { [ -f "$1" ] && [ "$(cat "$1.known" 2> /dev/null)" = "$(digests "$1")" ]; }
note_built() { digests "$1" > "$1.known"; }
