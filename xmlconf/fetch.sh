#!/bin/sh
# Gets the W3C XML Conformance Test Suite, release 2013-09-23, out of Debian 13's source package erlang, lays the 399 files of the subset in
# target/xmlconf, and checks every sum. It asks the mirror that this machine's own apt sources name, and leaves their settings as they are:
# the source line for Debian 13 and its index stand in a folder that is removed at the end. Needs apt, tar, xz and some 80 MB for a while.
#
#     xmlconf/fetch.sh

set -eu
cd "$(dirname "$0")/.."

release=lib/xmerl/test/xmerl_std_SUITE_data/xmlts20130923.tar.gz
release_sum=9b61db9f5dbffa545f4b8d78422167083a8568c59bd1129f94138f936cf6fc1f
keyring=/usr/share/keyrings/debian-archive-keyring.gpg

fail() {
    echo "fetch.sh: $1" >&2
    exit 1
}

[ -f "$keyring" ] || fail "missing: $keyring, of the Debian package debian-archive-keyring"

work=$(mktemp -d)
trap 'rm -rf "$work"' EXIT
mkdir -p "$work/source" "$work/release" "$work/none"

# The machine's own lists, its package cache and what it has installed are not touched. The folder is closed to apt's own user, so that
# apt stays who we are.
apt() {
    apt-get -qq -o Dir::Etc::sourcelist="$work/sources.list" -o Dir::Etc::sourceparts="$work/none" -o Dir::State::lists="$work/lists" \
        -o Dir::Cache::pkgcache= -o Dir::Cache::srcpkgcache= -o APT::Sandbox::User=root "$@"
}

# The source package from one mirror. A machine's sources may also name places that are no mirror of Debian: these have no such index.
package_from() {
    rm -rf "$work/lists"
    mkdir -p "$work/lists/partial"
    echo "deb-src [signed-by=$keyring] $1 trixie main" > "$work/sources.list"
    apt update && (cd "$work/source" && apt source --download-only --only-source erlang)
}

mirrors=$(apt-get indextargets --format '$(REPO_URI)' 'Created-By: Packages' | grep -v security | sort -u) || true
[ -n "$mirrors" ] || fail "apt knows no mirror here; run apt-get update first"
found=
for mirror in $mirrors; do
    if package_from "$mirror"; then
        found=$mirror
        break
    fi
done
[ -n "$found" ] || fail "no mirror in this machine's apt sources gave Debian 13's source package erlang"

orig=$(ls "$work"/source/erlang_*.orig.tar.* | grep -v '\.asc$' | head -n 1)
[ -n "$orig" ] || fail "the source package erlang has no original archive"
tar -xf "$orig" -C "$work" --wildcards --no-anchored --transform 's|.*/||' "$release" || fail "erlang's archive has no $release"
echo "$release_sum  $work/xmlts20130923.tar.gz" | sha256sum -c --quiet || fail "the release has another sum"
tar -xzf "$work/xmlts20130923.tar.gz" -C "$work/release" --strip-components=1

rm -rf target/xmlconf
cut -c 67- xmlconf/subset.sha256 | while read -r file; do
    mkdir -p "target/xmlconf/$(dirname "$file")"
    cp "$work/release/$file" "target/xmlconf/$file"
done
(cd target/xmlconf && sha256sum -c --quiet ../../xmlconf/subset.sha256) || fail "a file of the subset has another sum"
echo "target/xmlconf: $(find target/xmlconf -type f | wc -l) files, every sum as in xmlconf/subset.sha256"
