#!/bin/bash
# shellcheck disable=SC2016,SC2154
{
# opposite-strand.sh FILE: for -S. The records with the other strand: give them as -b beside -s.
here=$(readlink -f -- "${BASH_SOURCE[0]}") || exit 2
# shellcheck source=functions.sh source-path=SCRIPTDIR
. "${here%/*}/functions.sh" || exit 2
begin "$@" || exit 2
swap_strands "$1"
exit
}
