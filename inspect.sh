#!/bin/sh
# Proves and builds the program inspect, then runs it with the arguments given; without arguments, on the sample images.
set -e
root=$(cd "$(dirname "$0")" && pwd)
# a run is what builds the program
(cd "$root/crates/inspect" && rt run -- expiry data/empty.image) >&2
if [ $# -gt 0 ]; then
    exec "$root/crates/inspect/out/inspect" "$@"
fi
cd "$root/crates/inspect/data"
exec "$root/crates/inspect/out/inspect" expiry one.image empty.image full.image token tokens.image
