# shellcheck shell=sh disable=SC2034,SC2086,SC2154
# gzip files: read by the drop-in `bedtools`.

# feed NUMBER FILE: starts what writes the text of a gzip file to a pipe, and behind it a NUL if gzip ended well. The
# program reads it in the place of word NUMBER.
feed() {
    find_free 2 || return
    set -- "$1" "$2" $dk_free
    open_pipe "$3" "$4" || return
    eval "{ gzip -dc < \"\$2\" && printf '\\000'; } >&$4 2> /dev/null $3<&- $4>&- &"
    eval "exec $4>&-"
    dk_unzipped=$dk_unzipped,$1=$3 dk_unread="$dk_unread $3<&-"
}
dk_part=gzip.sh
