#!/bin/bash
# shellcheck disable=SC2016,SC2154
{
# header.sh COMMAND WORD..: for -header. The header lines of -i or -a, and then the command's output.
here=$(readlink -f -- "${BASH_SOURCE[0]}") || exit 2
# shellcheck source=functions.sh source-path=SCRIPTDIR
. "${here%/*}/functions.sh" || exit 2
begin "$@" || exit 2
file='' before=''
for word; do
    case $before in -i | -a) file=$word ;; esac
    before=$word
done
[ -n "$file" ] || fail 'no input is named'
twice "$file"
from "$file" awk '!/^#/ && !/^(track|browser)([ \t\r]|$)/ { exit }
    { sub(/\r$/, ""); print }'
bt "$@"
exit
}
