#!/bin/sh
{ # The shell reads all of it before it runs any, so that a script that was cut removes nothing.
# Removes what `make install` put into a folder, and the folders that are empty then.
#
#     packaging/uninstall.sh ROOT NAME
set -eu

root=$1 name=$2

case $name in '' | [!A-Za-z0-9]* | *[!A-Za-z0-9._+-]*) echo "NAME=$name is none" >&2; exit 1 ;; esac

rm -f "$root/bin/$name" "$root/bin/dunekettle" "$root/share/man/man1/$name.1" "$root/share/man/man1/dunekettle.1"
for command in merge complement intersect subtract genomecov bamtobed maskfasta; do
    rm -f "$root/share/man/man1/dunekettle-$command.1"
done
rm -rf "${root:?}/lib/dunekettle" "$root/share/dunekettle" "$root/share/doc/$name"
for word in "$name" dunekettle; do
    rm -f "$root/share/bash-completion/completions/$word" "$root/share/zsh/site-functions/_$word" \
        "$root/share/fish/vendor_completions.d/$word.fish"
done
for folder in share/bash-completion/completions share/bash-completion share/zsh/site-functions share/zsh \
    share/fish/vendor_completions.d share/fish share/man/man1 share/man share/doc share lib bin; do
    [ ! -d "$root/$folder" ] || rmdir "$root/$folder" 2> /dev/null || true
done
exit
}
