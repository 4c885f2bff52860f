#!/bin/sh
{ # The shell reads all of it before it runs any, so that a script that was cut ends with an error.
# Makes a Debian package of a folder that has the files of an installation.
#
#     packaging/deb.sh FOLDER VERSION SECONDS PACKAGE
#
# SECONDS since 1970 are the date of each file. One commit gives one package, on any file system, whatever the umask and
# the variables are that choose a compressor.
set -eu
umask 022
LC_ALL=C
export LC_ALL
unset GZIP

folder=$1 version=$2 package=$4
export SOURCE_DATE_EPOCH="$3"
name=dunekettle-bedtools
doc=$folder/usr/share/doc/$name
top=$(dirname "$0")/..

# Another gzip writes other bytes.
case $(gzip --version 2> /dev/null | head -n 1) in
'gzip 1.'*) ;;
*) echo 'make deb needs the gzip of GNU' >&2; exit 1 ;;
esac
command -v strip > /dev/null || { echo 'make deb needs strip, of binutils' >&2; exit 1; }
strip --remove-section=.comment --remove-section=.note "$folder/usr/bin/$name" "$folder/usr/lib/dunekettle/drop-in"

# Debian's licence is the file copyright, which has the text, and its zsh looks in a folder of its own.
rm "$doc/LICENSE"
mkdir -p "$folder/usr/share/zsh/vendor-completions"
mv "$folder"/usr/share/zsh/site-functions/* "$folder/usr/share/zsh/vendor-completions/"
rmdir "$folder/usr/share/zsh/site-functions"
cat > "$doc/changelog" <<END
$name ($version) unstable; urgency=medium

  * What changed stands in CHANGELOG.md beside this file.

 -- The Dunekettle authors <authors@dunekettle.invalid>  $(date -u -R -d "@$SOURCE_DATE_EPOCH")
END
gzip -9 -n "$doc/changelog" "$folder"/usr/share/man/man1/*.1
find "$folder/usr" -type d -exec chmod 755 {} +

# The C library is asked for in the version whose symbols the programs name.
libc=$(cat "$folder/usr/bin/$name" "$folder/usr/lib/dunekettle/drop-in" | grep -a -o 'GLIBC_2\.[0-9]*' |
    sed 's/GLIBC_//' | sort -V | tail -n 1)
# Kilobytes as dpkg counts them, each file in whole ones and each folder as one: what du says goes by the file system.
size=$(find "$folder/usr" -printf '%y %s\n' |
    awk '{ sum += $1 == "f" ? int(($2 + 1023) / 1024) : 1 } END { print sum }')
mkdir -p "$folder/DEBIAN"
chmod 755 "$folder" "$folder/DEBIAN"
sed -e "s/@VERSION@/$version/" -e "s/@ARCHITECTURE@/$(dpkg --print-architecture)/" -e "s/@LIBC@/$libc/" \
    -e "s/@SIZE@/$size/" "$top/packaging/control" > "$folder/DEBIAN/control"
(cd "$folder" && find usr -type f -print0 | sort -z | xargs -0 md5sum) > "$folder/DEBIAN/md5sums"
chmod 644 "$folder/DEBIAN/control" "$folder/DEBIAN/md5sums"
find "$folder" -exec touch -h -d "@$SOURCE_DATE_EPOCH" {} +
# With several threads xz writes other bytes than with one.
DPKG_DEB_THREADS_MAX=1 dpkg-deb --root-owner-group -Zxz -z6 -Snone --build "$folder" "$package"
rm -rf "$folder"
exit
}
