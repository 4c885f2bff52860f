#!/bin/bash
{ # bash reads all of it before it runs any, so that a script that was cut ends with an error.
# SPDX-License-Identifier: MIT
# index.sh FILE..: makes of each BED file NAME.bed.gz, without header lines and blank lines, and the index of tabix; and
# of each FASTA file the index NAME.fa.index: a line for each sequence, with its name, its first byte and how many it
# has. What tabix would leave out without a word, or with a word alone, ends it with status 1, and so does a name that
# can't be that of a folder. Then nothing is made.
# What is in the way, as a link that another user has put there, is removed, and never written to.
set -euC -o pipefail
for file; do
    # No tool takes this for an option or an address.
    case $file in /*) path=$file ;; *) path=./$file ;; esac
    export file
    case $file in
    *.bed) rm -f "$path.part.gz" "$path.part.gz.tbi"
        awk -F'\t' 'function fail(text) { print ENVIRON["file"] ":" FNR ": " text > "/dev/stderr"; exit 1 }
        /^(#|(track|browser)([ \t]|\r?$)|\r?$)/ { next } { print }
        $1 == "" { fail("empty chromosome name") }
        $1 != last && (last = $1) ~ /(^|\/)\.?\.?(\/|$)/ { fail("no folder can be named so: " $1) }
        $3 + 0 == 0 { fail("end is 0 or not a number") }' < "$path" | bgzip > "$path.part.gz" ||
            { rm -f "$path.part.gz"; exit 1; }
        if ! said=$(tabix -f -p bed "$path.part.gz" 2>&1) || [ -n "$said" ]; then
            rm -f "$path.part.gz" "$path.part.gz.tbi"
            echo "$file: ${said//.part.gz/.gz}" >&2
            exit 1
        fi
        mv -fT "$path.part.gz" "$path.gz"
        mv -fT "$path.part.gz.tbi" "$path.gz.tbi" ;;
    *.fa) rm -f "$path.part"
        LC_ALL=C awk 'function put() { printf "%s\t%.0f\t%.0f\n", name, start, at - start; start = at }
        function fail(text) { print ENVIRON["file"] ":" FNR ": " text ": " name > "/dev/stderr"; exit failed = 1 }
        /^>/ { if (named++) put(); name = substr($1, 2); sub(/\r$/, "", name) }
        /^>/ && seen[name]++ { fail("name comes back") }
        /^>/ && name ~ /(^|\/)\.?\.?(\/|$)/ { fail("no folder can be named so") }
        { at += length($0) + 1 } END { if (!failed) put() }' < "$path" > "$path.part" || { rm -f "$path.part"; exit 1; }
        mv -fT "$path.part" "$path.index" ;;
    *) echo "index.sh: $file: neither .bed nor .fa" >&2; exit 1 ;;
    esac
done
exit
}
