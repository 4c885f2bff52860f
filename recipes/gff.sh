#!/bin/bash
# shellcheck disable=SC2016,SC2154
{
# gff.sh FILE: GFF or GTF as sorted BED of six columns, and the line after them: `cut -f 7-` gives it back.
here=$(readlink -f -- "${BASH_SOURCE[0]}") || exit 2
# shellcheck source=functions.sh source-path=SCRIPTDIR
. "${here%/*}/functions.sh" || exit 2
begin "$@" || exit 2
from "$1" awk -F'\t' -v OFS='\t' '{ sub(/\r$/, "") }
    NF && !/^#/ { print $1, $4 - 1, $5, ".", 0, $7, $0 }' | in_order
exit
}
