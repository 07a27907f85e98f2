# What the Debian packages have in common: begun here, each has its documents by `document` and is packed by `pack`. No program: packaging/deb,
# packaging/deb-as-stm32flash, packaging/release and what tries the packages take it in.
set -eu
umask 022
export LC_ALL=C  # readelf tells the processor in the user's language
top=$(cd "$(dirname "$0")/.." && pwd)
room=$(mktemp -d)
trap 'rm -rf "$room"' EXIT
tree="$room/tree"
full=$(sed -n '1s/^stmflash (\([^)]*\)) .*/\1/p' "$top/packaging/changelog")
version=${full%-*}

fail() {
    echo "packaging/$(basename "$0"): $1" >&2
    exit 1
}

# Puts what Debian wants beside what is installed: document NAME OVERRIDES
document() {
    documents="$tree/usr/share/doc/$1"
    for page in "$tree"/usr/share/man/man1/*.1; do
        head -n 1 "$page" | grep -q "\"stmflash $version\"" || fail "$(basename "$page") is not of version $version"
    done
    mkdir -p "$documents" "$tree/usr/share/lintian/overrides" "$tree/DEBIAN"
    sed "s/^stmflash:/$1:/" "$top/packaging/$2" > "$tree/usr/share/lintian/overrides/$1"
    cp "$top/packaging/copyright" "$documents/copyright"
    cp "$top/CHANGELOG.md" "$documents/changelog"
    sed "s/^stmflash (/$1 (/" "$top/packaging/changelog" > "$documents/changelog.Debian"
    gzip -9n "$documents/changelog" "$documents/changelog.Debian" "$tree"/usr/share/man/man1/*.1
    find "$tree/usr" -type f -printf '%s\n' -o -printf '1\n' > "$room/sizes"
    size=$(awk '{ n += int(($1 + 1023) / 1024) } END { print n }' "$room/sizes")
}

# Packs it, and prints the package's name: pack FOLDER NAME ARCHITECTURE
pack() {
    (cd "$tree" && find usr -type f -exec md5sum {} + > "$room/sums" && sort -k 2 "$room/sums" > DEBIAN/md5sums)
    SOURCE_DATE_EPOCH=${SOURCE_DATE_EPOCH:-$(sed -n '/^ -- .*>  /{s///p;q}' "$top/packaging/changelog" | date -f - +%s)}
    export SOURCE_DATE_EPOCH
    dpkg-deb --root-owner-group --build "$tree" "$1/${2}_${full}_$3.deb" > /dev/null
    echo "$1/${2}_${full}_$3.deb"
}
