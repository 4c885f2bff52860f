#!/bin/bash
# shellcheck disable=SC2016,SC2154
{
# with-strand.sh FILE: for -s. The records that have a strand, as bedtools counts no others.
here=$(readlink -f -- "${BASH_SOURCE[0]}") || exit 2
# shellcheck source=functions.sh source-path=SCRIPTDIR
. "${here%/*}/functions.sh" || exit 2
begin "$@" || exit 2
from "$1" awk -F'\t' '$6 ~ /^[+-]\r?$/'
exit
}
