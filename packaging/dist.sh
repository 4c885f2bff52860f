#!/bin/sh
{ # The shell reads all of it before it runs any, so that a script that was cut ends with an error.
# Packs an installation into a tarball beside it, with the checksums of its files within and its own behind it.
#
#     packaging/dist.sh FOLDER SECONDS
#
# SECONDS since 1970 are the date of each file. One commit gives one tarball, on any file system, whatever the umask is.
set -eu
umask 022
LC_ALL=C
export LC_ALL
unset GZIP TAR_OPTIONS

folder=$(basename "$1")
# Another gzip writes other bytes.
case $(gzip --version 2> /dev/null | head -n 1) in
'gzip 1.'*) ;;
*) echo 'make dist needs the gzip of GNU' >&2; exit 1 ;;
esac
cd "$(dirname "$1")"
(cd "$folder" && find . -type f ! -name SHA256SUMS -print0 | sort -z | xargs -0 sha256sum > ../SHA256SUMS)
mv SHA256SUMS "$folder/"
# A pipe would lose the status of tar.
tar --sort=name --format=gnu --owner=0 --group=0 --numeric-owner --mode=u+rwX,go+rX,go-w --mtime="@$2" \
    -cf "$folder.tar" "$folder"
gzip -9 -n -f "$folder.tar"
sha256sum "$folder.tar.gz" > "$folder.tar.gz.sha256"
rm -rf "$folder"
echo "Made bin/$folder.tar.gz, with bin/$folder.tar.gz.sha256 beside it."
exit
}
