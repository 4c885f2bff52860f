# shellcheck shell=sh disable=SC2016,SC2034,SC2154
# Forms of genomecov that awk makes of -bga: read by the drop-in `bedtools`.

# make_form WORD..: if the words ask for such a form, sets `dk_call` to the words by which the program writes what awk
# reads, `dk_places` to the place of each in the call, and the files of awk `dk_filter` with the value `dk_value`
make_form() {
    dk_form='' dk_max='' dk_scale='' dk_seen=' ' dk_at=1
    dk_words='"${1}"' dk_among=1
    shift
    while [ $# -gt 0 ]; do
        case $dk_seen in *" $1 "*) return 1 ;; esac
        dk_seen="$dk_seen$1 " dk_at=$((dk_at + 1))
        case $1 in
        -i | -g | -strand | -max | -scale)
            [ -n "${2-}" ] || return
            case $1 in
            -max) dk_max=$2 ;;
            -scale) dk_scale=$2 ;;
            *) dk_words="$dk_words \"\${$dk_at}\" \"\${$((dk_at + 1))}\"" dk_among="$dk_among $dk_at $((dk_at + 1))" ;;
            esac
            shift
            dk_at=$((dk_at + 1))
            ;;
        -bg | -bga | -d | -dz)
            [ -z "$dk_form" ] || return
            dk_form=$1 dk_words="$dk_words -bga" dk_among="$dk_among $dk_at"
            ;;
        *) return 1 ;;
        esac
        shift
    done
    case $dk_max in *[!0-9]* | 0* | ??????????*) return 1 ;; esac
    case $dk_scale in *[!0-9.]* | *.*.* | .* | *. | ???????????*) return 1 ;; esac
    case $dk_form/$dk_max/$dk_scale in
    -bg//?*) dk_form=scaled dk_value="-bg $dk_scale" ;;
    -bga//?*) dk_form=scaled dk_value=$dk_scale ;;
    -d*/*/) dk_value=$dk_form dk_form=each_base ;;
    /*/) dk_form=histogram dk_value=${dk_max:-2147483647} dk_words="$dk_words -bga" dk_among="$dk_among 0" ;;
    *) return 1 ;;
    esac
    [ -s "$dk_home/whole.awk" ] && [ -s "$dk_home/float.awk" ] && [ -s "$dk_home/$dk_form.awk" ] && tells_failed_writes
}

# tells_failed_writes: whether awk ends with a fault where a write failed. That of busybox doesn't, and what it loses is
# lost silently.
tells_failed_writes() { [ -c /dev/full ] && ! LC_ALL=C awk 'BEGIN { print "x" }' > /dev/full; } 2> /dev/null

# set_form IN OUT: opens the pipe between the program and awk
set_form() {
    open_pipe "$1" "$2" || return
    dk_filter=$dk_form dk_call=$dk_words dk_places=$dk_among dk_in=$1 dk_out=$2
    dk_to=">&$2 $1<&- $2>&-" dk_unread="$dk_unread $1<&- $2>&-"
}

# finish_form: starts awk, and sets `dk_status` once the program and awk have ended
finish_form() {
    dk_first=$!
    eval "LC_ALL=C awk -v value=\"\$dk_value\" -f \"\$dk_home/whole.awk\" -f \"\$dk_home/float.awk\" \
        -f \"\$dk_home/\$dk_filter.awk\" <&$dk_in 2> /dev/null $dk_in<&- $dk_out>&- &"
    eval "exec $dk_in<&-"
    wait "$dk_first"
    dk_status=$?
    dk_first=''
    # The last line says that all came.
    [ "$dk_status" != 0 ] || { trap '' PIPE; echo >&"$dk_out"; trap - PIPE; } 2> /dev/null
    eval "exec $dk_out>&-"
    wait "$!"
    set -- $?
    case $dk_status/$1 in
    0/0) ;;
    0/141 | 121/141) dk_status=121 ;;
    0/[1-3] | 121/[1-3]) echo 'bedtools genomecov: writing failed' >&2; dk_status=1 ;;
    0/* | 121/*) dk_status=$1 ;;
    esac
}
dk_part=forms.sh
