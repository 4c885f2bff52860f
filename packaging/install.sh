#!/bin/sh
# shellcheck disable=SC2317 # a word of put calls a function
{ # The shell reads all of it before it runs any, so that a script that was cut ends with an error.
# Installs the program, the front, the drop-in, the recipes, the pages, the manual pages and the completions.
#
#     packaging/install.sh ROOT AT NAME PROGRAM DROP_IN DOC..
#
# ROOT is the folder of the installation now, AT where it will be, NAME the program's name in ROOT/bin, and DROP_IN the
# program of the drop-in. Each file is written beside its place and then renamed: whoever runs it meanwhile has the old
# one or the new one, whole. All users can read what is installed, whatever the umask. What is beside it already, as a
# link that another user has put there, is removed, and never written to.
set -euC
umask 022

root=$1 at=$2 name=$3 program=$4 drop_in=$5
shift 5
top=$(dirname "$0")/..
share=$root/share
commands='merge|complement|intersect|subtract|genomecov|bamtobed|maskfasta'

case $name in
'' | dunekettle | [!A-Za-z0-9]* | *[!A-Za-z0-9._+-]*) is_name='' ;;
*) is_name=1 ;;
esac
# Their manual pages have such names.
case ${name#dunekettle-} in
merge | complement | intersect | subtract | genomecov | bamtobed | maskfasta) is_name='' ;;
esac
if [ -z "$is_name" ]; then
    echo "NAME=$name is taken, or isn't one of letters, digits and ._+-" >&2
    exit 1
fi

# put MODE FILE WORD..: what the words write becomes the file
put() {
    put_mode=$1 put_file=$2
    shift 2
    mkdir -p "${put_file%/*}"
    rm -f "$put_file.new"
    if ! { "$@" > "$put_file.new" && chmod "$put_mode" "$put_file.new" && mv -fT "$put_file.new" "$put_file"; }; then
        rm -f "$put_file.new"
        echo "$put_file can't be installed" >&2
        exit 1
    fi
}

# link TARGET FILE: a link, put into its place in the same way
link() {
    mkdir -p "${2%/*}"
    rm -f "$2.new"
    ln -s "$1" "$2.new"
    mv -fT "$2.new" "$2"
}

# as_replacement TEXT: so that sed puts it as it is
as_replacement() { printf '%s\n' "$1" | sed 's/[&|\\]/\\&/g'; }

# The parts of the front before what reads them; and the names of bedtools that lead to it: relative links, so that a
# folder may be moved.
for file in "$top"/front/*.sh "$top"/front/*.awk "$top/generated/instead.txt"; do
    put 644 "$root/lib/dunekettle/${file##*/}" cat "$file"
done
put 644 "$root/lib/dunekettle/help.txt" sed "s|share/doc/dunekettle-bedtools|share/doc/$name|" "$top/generated/help.txt"
put 755 "$root/bin/$name" cat "$program"
put 755 "$root/bin/dunekettle" sed "s|^dk_name=.*|dk_name=$name|" "$top/front/dunekettle"
put 755 "$root/lib/dunekettle/drop-in" cat "$drop_in"
link ../../../bin/dunekettle "$root/lib/dunekettle/script/bedtools"
# An installation before this one has a link there, which the rename replaces.
put 755 "$root/lib/dunekettle/bin/bedtools" sed "s|^dk_name=[^ ]*|dk_name=$name|" "$top/front/bedtools"
for file in mergeBed complementBed intersectBed subtractBed genomeCoverageBed maskFastaFromBed bamToBed; do
    link bedtools "$root/lib/dunekettle/bin/$file"
done

# The scripts call the program by its name there. They aren't below share/doc, which some systems leave out; a link
# leads there from the pages.
doc=$share/doc/$name
if [ $# -gt 0 ]; then
    for folder in recipes shards; do
        find "$top/$folder" -type f | while IFS= read -r file; do
            mode=644
            [ ! -x "$file" ] || mode=755
            put "$mode" "$share/dunekettle/$folder/${file#"$top/$folder/"}" sed "s/dunekettle-bedtools/$name/g" "$file"
        done
    done
    # An installation before this one has them in a folder there.
    rm -rf "$doc/examples"
    link ../../dunekettle/recipes "$doc/recipes"
    link ../../dunekettle/shards "$doc/shards"
fi

# with_links PAGE: of a page's links those that lead to no installed file become their text: it is in the repository
# alone. A heading that such a link names isn't looked at: test_links.py does that.
with_links() {
    folder=$doc/$1
    folder=${folder%/*} LC_ALL=C awk '
        function is_there(target) {
            sub(/#.*/, "", target)
            return target == "" || target ~ /:\/\// || !system("[ -e \"$folder/" target "\" ]")
        }
        /^    / { print; next }
        {
            rest = $0
            made = ""
            while (match(rest, /\[[^]]*\]\([^) ]+\)/)) {
                link = substr(rest, RSTART, RLENGTH)
                text = substr(link, 2, index(link, "](") - 2)
                target = substr(link, length(text) + 4, length(link) - length(text) - 4)
                made = made substr(rest, 1, RSTART - 1) (is_there(target) ? link : text)
                rest = substr(rest, RSTART + RLENGTH)
            }
            print made rest
        }' "$top/$1"
}

# All pages are there before the links of the first are looked at. What is made for a package stands beside them.
for page; do
    case $page in
    *.md) [ -e "$doc/$page" ] || put 644 "$doc/$page" cat "$top/$page" ;;
    packaging/*) put 644 "$doc/${page##*/}" cat "$top/$page" ;;
    *) put 644 "$doc/$page" cat "$top/$page" ;;
    esac
done
for page; do
    case $page in *.md) put 644 "$doc/$page" with_links "$page" ;; esac
done

# In the examples `bedtools` followed by a command becomes the name; fault lines, as `bedtools merge: ..`, stay.
pages=$(as_replacement "$at/share/doc/$name/docs")
put 644 "$share/man/man1/$name.1" sed -E -e "s|^\.Nm bedtools\$|.Nm $name|" \
    -e "s|^\.Dt BEDTOOLS |.Dt $(printf '%s' "$name" | tr '[:lower:]' '[:upper:]') |" \
    -e "s/bedtools ($commands)( |\$)/$name \1\2/g" \
    -e "s|docs/([A-Z]+\.md)|$pages/\1|" \
    "$top/man/bedtools.1"
put 644 "$share/man/man1/dunekettle.1" sed -E -e "s|dunekettle-bedtools|$name|g" -e "s|docs/([A-Z]+\.md)|$pages/\1|" \
    -e "s|^\.Pa lib/dunekettle/bin\$|.Pa $(as_replacement "$at")/lib/dunekettle/bin|" "$top/man/dunekettle.1"
for page in "$top"/generated/man/*.1; do
    put 644 "$share/man/man1/${page##*/}" sed -E -e "s|dunekettle-bedtools|$name|g" \
        -e "s|docs/([A-Z]+\.md)|$pages/\1|" "$page"
done

# completions WORD INSTALLED: those of a program, where each shell looks for them
completions() {
    for shell in bash zsh fish; do
        case $shell in
        bash) file=bash-completion/completions/$2 ;;
        zsh) file=zsh/site-functions/_$2 ;;
        fish) file=fish/vendor_completions.d/$2.fish ;;
        esac
        put 644 "$share/$file" sed "s/$1/$2/g" "$top/generated/completions/$1.$shell"
    done
}
completions dunekettle-bedtools "$name"
completions dunekettle dunekettle
exit
}
