#!/bin/bash
# shellcheck disable=SC2016,SC2154
{
# genomecov-track.sh TEXT WORD..: for -trackline, with -trackopts TEXT: genomecov WORD.. after a line of UCSC.
here=$(readlink -f -- "${BASH_SOURCE[0]}") || exit 2
# shellcheck source=functions.sh source-path=SCRIPTDIR
. "${here%/*}/functions.sh" || exit 2
begin "$@" || exit 2
echo "track type=bedGraph${1:+ $1}"
bt genomecov "${@:2}"
exit
}
