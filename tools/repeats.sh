#!/usr/bin/env bash
# repeats.sh COMMAND [ARGUMENT ..]: runs a finder of repeated code over the Rattle sources of all crates.
#
# Such finders know Rust by the ending of its files. So the sources are copied to a temporary folder, with `.rs` in
# place of `.rt`, and the command runs in that folder. For example: tools/repeats.sh jscpd --format rust .
set -eu
[ $# -gt 0 ] || { sed -n 's/^# \?//p' "$0" | head -5; exit 2; }
top=$(cd "$(dirname "$0")/.." && pwd)
room=$(mktemp -d)
trap 'rm -rf "$room"' EXIT
cd "$top/crates"
find . -name '*.rt' -not -path '*/out/*' | while read -r file; do
    mkdir -p "$room/$(dirname "$file")"
    cp "$file" "$room/${file%.rt}.rs"
done
cd "$room"
"$@"
