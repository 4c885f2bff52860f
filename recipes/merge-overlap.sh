#!/bin/bash
# shellcheck disable=SC2016,SC2154
{
# merge-overlap.sh N FILE: for merge -d -N: joins features that share N bases. One of N bases or fewer is a fault.
here=$(readlink -f -- "${BASH_SOURCE[0]}") || exit 2
# shellcheck source=functions.sh source-path=SCRIPTDIR
. "${here%/*}/functions.sh" || exit 2
begin "$@" || exit 2
case $1 in *[!0-9]*) fail "N is a number of bases: $1" ;; esac
from "$2" awk -F'\t' -v OFS='\t' -v n="$1" '{ sub(/\r$/, "") }
    NF && !/^(#|(track|browser)([ \t]|$))/ { print $1, $2, $3 - n }' | bt merge |
    awk -F'\t' -v OFS='\t' -v n="$1" '{ print $1, $2, $3 + n }'
exit
}
