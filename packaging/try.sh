# What the trials of the Debian packages have in common. No program: packaging/try-deb and packaging/try-deb-as-stm32flash take it in, which say
# by `what` what they try.
. "$(dirname "$0")/deb.sh"
unset LC_ALL  # what is tried is what a user has
for tool in dpkg dpkg-deb strip; do
    if ! command -v "$tool" > /dev/null; then
        echo "left out: $what wasn't tried, there is no $tool"
        exit 0
    fi
done
root="$room/root" force=

# The package's own place: an empty system as far as dpkg knows.
packages() {
    dpkg --root="$root" --force-not-root --force-bad-path $force --log="$room/log" "$@" > "$room/said" 2>&1
}

well() {
    packages "$@" || {
        cat "$room/said" >&2
        fail "dpkg $1"
    }
}

# Every name below the root but dpkg's own.
names() {
    (cd "$root" && find . -path ./var -prune -o -print | sort)
}

# What lintian says of a package.
look_at() {
    if ! command -v lintian > /dev/null; then
        echo "left out: $what wasn't looked at, there is no lintian"
        return
    fi
    lintian --allow-root --no-cfg --fail-on error "$1" > "$room/lintian" 2>&1 || {
        cat "$room/lintian" >&2
        fail "lintian has errors"
    }
}

# What is installed has manual pages that can be read, and these documents.
has_documents() {
    for page in "$root"/usr/share/man/man1/*.1.gz; do
        command -v man > /dev/null || break
        MANPAGER=cat MANROFFSEQ='' man --warnings -l "$page" > page 2> warnings || fail "man $page"
        [ ! -s warnings ] || { cat warnings >&2; fail "man $page has warnings"; }
        grep -q SYNOPSIS page || fail "man $page shows nothing"
    done
    for file; do
        [ -s "$root/usr/share/doc/$file" ] || fail "no $file"
    done
}

mkdir -p "$root/var/lib/dpkg/info" "$root/var/lib/dpkg/updates"
: > "$root/var/lib/dpkg/status"
