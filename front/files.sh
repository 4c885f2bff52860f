# shellcheck shell=sh disable=SC2034,SC2154
# Files without a name, and work in the background: read by the drop-in of `dunekettle`. Whatever ends
# before its end, or finds no room, has to be seen: a tool by its status, or by a last line that only it writes.

# open_files NAME..: opens an empty file for each, and sets `dk_NAME` to where it is. Its name in TMPDIR is gone by
# then, so that nothing is left of it, however this ends.
open_files() {
    trap 'end_by PIPE' PIPE
    dk_folder=$(mktemp -d "${TMPDIR:-/tmp}/dunekettle-XXXXXX" 2> /dev/null) || {
        # One that was killed may have made it. Half of a name is no name.
        case $dk_folder in "${TMPDIR:-/tmp}"/dunekettle-??????) rm -rf "$dk_folder" ;; esac
        dk_folder=''
        trap - PIPE
        return 1
    }
    dk_opened=0
    for dk_label; do
        free_descriptor || break
        eval "command exec $dk_free<> \"\$dk_folder/\$dk_label\"" || break
        eval "dk_$dk_label=/dev/fd/$dk_free"
        dk_opened=$((dk_opened + 1))
    done 2> /dev/null
    rm -rf "$dk_folder"
    dk_folder=''
    trap - PIPE
    [ "$dk_opened" = $# ] && { true < "/dev/fd/$dk_free"; } 2> /dev/null
}

# has_parts NAME..: whether these files of the installation are there, for awk
has_parts() { for dk_file; do [ -s "$dk_files/$dk_file" ] && [ -r "$dk_files/$dk_file" ] || return; done; }

# close_files FILE..: closes those that were opened here, or descriptors
close_files() { for dk_file; do eval "exec ${dk_file##*/}<&-"; done; }

# has_room BYTES: whether TMPDIR has room for them
has_room() {
    dk_kilobytes=$(df -Pk "${TMPDIR:-/tmp}" 2> /dev/null | awk 'NR == 2 { print $4 }')
    [ "${dk_kilobytes:-0}" -ge "$(($1 / 1024))" ] 2> /dev/null
}

# await PROCESS: waits for it, so that a signal isn't late, and gives its status
await() {
    dk_children=$1
    wait "$1"
    set -- $?
    dk_children=''
    return "$1"
}

# finish STATUS: ends as a process did that had this status
finish() {
    [ "$1" -le 128 ] || as_signalled "$(kill -l "$1")" "$1"
    exit "$1"
}

# writes_none PATTERN WORD..: whether no line with the pattern is in what the words write, and they wrote all of it.
# Else the file `dk_spare` has what was found, or nothing if the output was cut off.
writes_none() {
    dk_pattern=$1
    shift
    { "$@" < /dev/null 2> /dev/null && echo end; } |
        LC_ALL=C grep -aoE -m 1 -e "$dk_pattern" -e '^end$' > "$dk_spare" &
    await $! && IFS= read -r dk_line < "$dk_spare" && [ "$dk_line" = end ]
}
dk_part=files.sh
