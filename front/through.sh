# shellcheck shell=sh disable=SC2034,SC2154
# What awk makes of the output of the program: read by the drop-in of `dunekettle`.

# tells_failed_writes: whether awk ends with a fault where a write failed. That of busybox doesn't, and what it loses is
# lost silently.
tells_failed_writes() { [ -c /dev/full ] && ! LC_ALL=C awk 'BEGIN { print "x" }' > /dev/full; } 2> /dev/null

# write_through FILTERS VALUE WORD..: writes what awk makes of the output of the program, which the words run, and ends
# as both do
write_through() {
    dk_filters=$1 dk_value=$2
    shift 2
    { "$dk_program" "$dk_command" "$@" < /dev/null 2> "$dk_spare" && echo; } |
        become_filters "$dk_value" "$dk_filters" 2> /dev/null &
    await $!
    dk_status=$?
    # What the program says where awk has failed, or has ended without a reader, isn't a fault of its own.
    case $dk_status in
    3) if grep . < "$dk_spare" >&2; then tell_whose; else say "$dk_command was cut off"; fi ;;
    1 | 2) fail_to_write ;;
    141) kill -s PIPE "$$"; fail_to_write ;; # The signal ends this shell, unless its caller ignores it.
    *) finish "$dk_status" ;;
    esac
    exit 1
}

# become_filters VALUE FILTERS: becomes awk with these files, after that which sees that all came
become_filters() {
    dk_value=$1
    # shellcheck disable=SC2086
    set -- whole.awk $2
    for dk_file; do
        set -- "$@" -f "$dk_files/$dk_file"
        shift
    done
    LC_ALL=C exec awk -v value="$dk_value" "$@"
}

# fail_to_write: says so as the program does
fail_to_write() {
    printf 'bedtools %s: writing failed\n' "$dk_command" >&2 2> /dev/null
    tell_whose
}
dk_part=through.sh
