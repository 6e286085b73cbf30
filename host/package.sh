#!/bin/sh
# package.sh STAGED VERSION FOLDER: makes a package for Debian of what `make install` has put below STAGED with the prefix /usr, and removes
# STAGED. The package needs no scripts: dpkg puts its files in their places and takes them away. Prints its name.
set -eu
staged=$1 version=$2 folder=$3
machine=$(dpkg --print-architecture)
package=$folder/choughbell_${version}_$machine.deb
trap 'rm -rf "$staged"' EXIT

# Debian has completions for zsh in another folder, and pages of the manual compressed.
mkdir -p "$staged/usr/share/zsh/vendor-completions" "$staged/usr/share/doc/choughbell" "$staged/DEBIAN"
mv "$staged/usr/share/zsh/site-functions/_choughbell" "$staged/usr/share/zsh/vendor-completions/"
rmdir "$staged/usr/share/zsh/site-functions"
gzip -9nf "$staged/usr/share/man/man1/choughbell.1"
cat > "$staged/usr/share/doc/choughbell/copyright" <<END
choughbell $version, by the Choughbell maintainers. The source comes with no licence.
END

# The oldest C library that has all that the command calls, read off the command itself.
libc=$(LC_ALL=C readelf -V "$staged/usr/bin/choughbell" 2> /dev/null | grep -o 'GLIBC_[0-9.]*' | sort -uV | tail -n 1)
cat > "$staged/DEBIAN/control" <<END
Package: choughbell
Version: $version
Architecture: $machine
Maintainer: Choughbell maintainers <maintainers@users.noreply.choughbell.example>
Depends: libc6${libc:+ (>= ${libc#GLIBC_})}, libgcc-s1
Section: text
Priority: optional
Installed-Size: $(du -sk "$staged/usr" | cut -f 1)
Description: cut XML by a list of paths
 choughbell writes those elements of an XML document that a list of paths
 selects, by a filter that is proved. With the command come its manual page,
 completions for bash, zsh and fish, and the library for C and Rust.
END
(cd "$staged" && find usr -type f -exec md5sum {} + | sort -k 2 > DEBIAN/md5sums)
chmod -R u+rwX,go+rX,go-w "$staged"
dpkg-deb --root-owner-group --build "$staged" "$package" > /dev/null
echo "$package"
