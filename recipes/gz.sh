#!/bin/bash
# shellcheck disable=SC2016,SC2154
{
# gz.sh COMMAND WORD..: for compressed input. Each word that ends with .gz is tested, and then read through zcat.
here=$(readlink -f -- "${BASH_SOURCE[0]}") || exit 2
# shellcheck source=functions.sh source-path=SCRIPTDIR
. "${here%/*}/functions.sh" || exit 2
begin "$@" || exit 2
words=()
for word in "${@:2}"; do
    case $word in
    *.gz) gzip -t < "$word"
        exec {input}< <(gzip -dc < "$word")
        words+=("/dev/fd/$input") ;;
    *) words+=("$word") ;;
    esac
done
bt "$1" "${words[@]}"
exit
}
