#!/bin/bash
# shellcheck disable=SC2016,SC2154
{
# by-genome.sh GENOME < FILE: sorts by the order of a genome file, and by start.
here=$(readlink -f -- "${BASH_SOURCE[0]}") || exit 2
# shellcheck source=functions.sh source-path=SCRIPTDIR
. "${here%/*}/functions.sh" || exit 2
begin "$@" || exit 2
by_genome "$1"
exit
}
