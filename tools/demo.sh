#!/usr/bin/env sh
# The main job, shown on a simulated chip: a write is stopped half way and undone, then done, verified and undone.
# The program is built here with no proof, which is the fastest way, and stays at bin/stmflash-unproved; `make` proves it. It is
# built from a copy of the code, so that `--version` says of it that it isn't proved (tools/unproved-sources).
set -eu
top=$(cd "$(dirname "$0")/.." && pwd)
program="$top/bin/stmflash-unproved"
for needed in rt python3; do
    command -v "$needed" > /dev/null || { echo "make demo: there is no $needed on the path (README, \"Build, install, test\")" >&2; exit 1; }
done
demo=$(mktemp -d)
trap 'rm -rf "$demo"' EXIT

# `rt try` builds the program, runs it once and removes it. So that run serves a simulator, until a copy of the program has
# been taken and is its client. What it makes of the whole program is kept too, for the same build for 64-bit ARM (arm64/build).
echo "Building stmflash without waiting for its proofs (\`make\` waits for them). This takes about a minute."
mkdir -p "$demo/room" "$top/bin"
sh "$top/tools/unproved-sources" "$demo/source"
(
    cd "$demo/source/crates/stmflash"
    TMPDIR="$demo/room" "$top/tools/try-unproved" --module "$program.bc" -- sim --table "$top/chips.toml" --id 0412 --flash "$demo/first.bin" \
        --socket "$demo/first" > "$demo/said" 2>&1 || true
    touch "$demo/over"
) &
until [ -S "$demo/first" ] || [ -e "$demo/over" ]; do
    sleep 1
done
made=$(find "$demo/room" -type f -name program)
if [ -z "$made" ]; then
    wait
    sed "s|$demo/source|$top|g" "$demo/said"
    exit 1
fi
rm -f "$program"
cp "$made" "$program"
chmod 755 "$program"
mkdir -p "$top/bin/unproved"
ln -sf ../stmflash-unproved "$top/bin/unproved/stmflash"
ln -sf ../../line/stmflash-line ../../line/stmflash-trial "$top/bin/unproved"
"$program" info --table "$top/chips.toml" --device "$demo/first" --journal "$demo/journal" > "$demo/said" || true
wait

# A flash of 32 KiB with something to see in it.
awk 'BEGIN { for (i = 0; i < 2048; i++) printf "stmflash %06d\n", i }' > "$demo/flash.bin"
cp "$demo/flash.bin" "$demo/before.bin"
printf 'a new program, which is not there yet' > "$demo/image.bin"
cp "$top/chips.toml" "$demo/chips.toml"
cd "$demo"

# Shows a use of the simulated chip, and what it says.
use() {
    echo
    echo "> stmflash $1 --table chips.toml --device sim:0412:flash.bin --journal journal $2"
    # shellcheck disable=SC2086
    "$program" "$1" --table chips.toml --device sim:0412:flash.bin --journal journal $2 2>&1
}

# Shows the flash from the place of the image on.
show() {
    echo "  the flash from 08000400 on: $(tail -c +1025 flash.bin | head -c 40 | tr '\377\n' '.|')"
}

# Ends the demo where a write left the flash as it was.
wrote() {
    ! cmp -s flash.bin before.bin || { echo "make demo: the write changed nothing" >&2; exit 1; }
}

use info ""
show
use write "-S 0x08000400 --stop 3500 image.bin" || true
show
wrote
echo "  where the line was left: $(cut -c 1-40 flash.bin.line)"
use undo ""
show
cmp flash.bin before.bin
use write "-v -S 0x08000400 image.bin"
show
wrote
use undo ""
show
cmp flash.bin before.bin
echo
echo "The flash is what it was before, byte for byte, both times."
echo
echo "The program stays in bin/unproved, for trying things out: it is built from the same code, and nothing"
echo "about it was proved. \`make\` proves the code and builds bin/stmflash."
