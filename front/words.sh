# shellcheck shell=sh disable=SC2034,SC2154
# What the words of a command line say, whatever is in the files: read by the drop-in of `dunekettle` and by hints.sh.

# has_word OPTION: whether it stands in the command line
has_word() { case $dk_words in *" $1 "*) ;; *) return 1 ;; esac; }

# takes_value OPTION: whether it has a value in this command
takes_value() {
    case $dk_command$1 in
    # tools/options.py writes these lines
    merge-i | merge-g | merge-d | merge-S | merge-c | merge-o | merge-delim | merge-prec | merge-iobuf) ;;
    complement-i | complement-g) ;;
    intersect-a | intersect-b | intersect-g | intersect-f | intersect-held | intersect-abam | intersect-names) ;;
    intersect-F | intersect-iobuf) ;;
    subtract-a | subtract-b | subtract-g | subtract-f | subtract-held | subtract-F | subtract-iobuf) ;;
    genomecov-i | genomecov-g | genomecov-strand | genomecov-ibam | genomecov-max | genomecov-scale) ;;
    genomecov-trackopts | genomecov-fs) ;;
    bamtobed-i | bamtobed-tag | bamtobed-color) ;;
    maskfasta-fi | maskfasta-bed | maskfasta-fo | maskfasta-mc) ;;
    # they end here
    *) return 1 ;;
    esac
}

# read_options WORD..: sets a variable for each value, and `dk_words`, in which each option stands
read_options() {
    dk_i=- dk_a='' dk_b='' dk_g='' dk_f='' dk_d=0 dk_fi='' dk_bed='' dk_fo='' dk_words=' '
    dk_ibam='' dk_max='' dk_scale='' dk_strand=''
    while [ $# -gt 0 ]; do
        case $dk_words in *" $1 "*) dk_why="$1 is given twice" ;; esac
        dk_words="$dk_words$1 "
        if takes_value "$1"; then
            if [ -z "${2-}" ]; then dk_why="$1 has no value"; return; fi
            case $1 in
            -i) dk_i=$2 ;; -a) dk_a=$2 ;; -b) dk_b=$2 ;; -g) dk_g=$2 ;; -f) dk_f=$2 ;; -d) dk_d=$2 ;;
            -fi) dk_fi=$2 ;; -bed) dk_bed=$2 ;; -fo) dk_fo=$2 ;; -strand) dk_strand=$2 ;;
            -ibam) dk_ibam=$2 ;; -max) dk_max=$2 ;; -scale) dk_scale=$2 ;;
            esac
            shift
        fi
        shift
    done
}

# is_stream FILE: whether it can't be looked at and then read again; a link to standard input is seen by its device
# here. If /dev/null can't be opened, it may be one.
is_stream() {
    case $1 in - | stdin | /dev/fd/* | /dev/std* | /proc/*) return 0 ;; esac
    ! { [ ! -e "$1" ] || [ -f "$1" ] || [ -d "$1" ]; } < /dev/null
}

# try_words WORD..: runs them with nothing to read
try_words() {
    case $dk_fo in
    '') ;;
    - | stdout) dk_why="-fo $dk_fo is a file of bedtools" ;;
    "$dk_fi" | "$dk_bed") dk_why='-fo is an input' ;;
    esac
    dk_count=$#
    while [ "$dk_count" -gt 0 ]; do
        dk_word=$1
        shift
        case $dk_word in
        -fo) ;;
        -i | -a | -b | -fi | -bed | -g) set -- "$@" "$dk_word" /dev/null ;;
        *) if takes_value "$dk_word"; then set -- "$@" "$dk_word" "$1"; else set -- "$@" "$dk_word"; fi ;;
        esac
        ! takes_value "$dk_word" || { shift; dk_count=$((dk_count - 1)); }
        dk_count=$((dk_count - 1))
    done
    { dk_fault=$("$dk_program" "$dk_command" "$@" 2>&1 > /dev/null < /dev/null); } 2> /dev/null || failed "$dk_fault"
}

# failed TEXT: sets `dk_why` to the last line of what the program said before it ended with a fault
failed() { dk_why=${1##*"$dk_nl"} dk_why=${dk_why:-the program fails}; }
dk_part=words.sh
