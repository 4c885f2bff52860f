#!/bin/bash
{ # bash reads all of it before it runs any, so that a script that was cut ends with an error.
# SPDX-License-Identifier: MIT
# names.sh FILE..: the names of the shards in order: those of genome files and of the indexes of FASTA files as they
# come, and behind them those that only a NAME.bed.gz has, in the order of their bytes. A name that can't be that of a
# folder, or in which tabix would read a region, as `a}:1-2`, ends it with status 1, and without a name.
set -euo pipefail
{
    for file; do
        case $file in
        *.bed.gz) ;;
        *.index) cat < "$file" ;;
        *) sed '/^#/d; /^\r\?$/d' < "$file" ;;
        esac
    done
    for file; do
        case $file in
        /*.bed.gz) tabix -l "$file" ;;
        *.bed.gz) tabix -l "./$file" ;;
        esac
    done | LC_ALL=C sort
} | awk -F'\t' 'function fail(text) { print "names.sh: " text ": " $1 > "/dev/stderr"; exit failed = 1 }
    $1 ~ /(^|\/)\.?\.?(\/|$)/ { fail("no folder can be named so") }
    $1 ~ /^[^}]*}:/ { fail("tabix reads a region in this name") }
    !seen[$1]++ { name[++n] = $1 } END { for (i = 1; !failed && i <= n; i++) print name[i] }'
exit
}
