#!/bin/bash
{ # bash reads all of it before it runs any, so that a script that was cut ends with an error.
# SPDX-License-Identifier: MIT
# shard.sh NAME WORD..: dunekettle-bedtools WORD.. over one shard, whose part of each input is put into the folder
# shards/NAME. What is in the way of a part, as a link that another user has put there, is removed, and never written
# to.
set -euC -o pipefail
fail() { echo "shard.sh: $1" >&2; exit 1; }
export NAME=$1
case /$NAME/ in *//* | */./* | */../*) fail "no folder can be named so: $NAME" ;; esac
[[ ! $NAME =~ ^[^}]*}: ]] || fail "tabix reads a region in this name: $NAME"
case " ${*:3} " in *\ -[ia]\ * | *\ -fi\ *) ;; *) fail 'no input is named' ;; esac
mkdir -p "shards/$NAME"
[ "$(readlink -f "shards/$NAME")" = "$(readlink -f shards)/$NAME" ] ||
    fail "a link leads out of the folder shards: $NAME"
declare -A file_of=()
words=() before=
for word in "${@:2}"; do
    part=${word##*/}
    part=shards/$NAME/${part%.gz}
    [ "${file_of[$part]:=$word}" = "$word" ] || fail "two inputs are named ${part##*/}"
    # No tool takes this for an option or an address.
    case $word in /*) path=$word ;; *) path=./$word ;; esac
    [ ! "$path" -ef "$part" ] || fail "$word is where its part would be"
    case $before in -[iabg] | -bed | -fi) rm -f "$part" ;; esac
    case "$before $word" in
    -[iab]\ *.bed.gz | -bed\ *.bed.gz) tabix "$path" "{$NAME}" > "$part" ;;
    -g\ *) case $2 in
        complement | genomecov) awk -F'\t' '$1 "" == ENVIRON["NAME"]' < "$path" > "$part" ;;
        *) part=$word ;;
        esac ;;
    -fi\ *.fa) bytes=$(awk -F'\t' '$1 "" == ENVIRON["NAME"] { print "skip=" $2, "count=" $3 }' < "$path.index")
        # shellcheck disable=SC2086 # two words, or none
        dd if="$path" of="$part" bs=1M iflag=skip_bytes,count_bytes status=none count=0 $bytes ;;
    -i\ *.sam) split -n "l/$NAME" "$path" > "$part" ;;
    -[iab]\ * | -bed\ * | -fi\ * | -fo\ *) fail "$before $word: no part can be made of it" ;;
    *) part=$word ;;
    esac
    words+=("$part")
    before=$word
done
"${BEDTOOLS:-dunekettle-bedtools}" "${words[@]}"
exit
}
