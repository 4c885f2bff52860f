# shellcheck shell=sh disable=SC2034,SC2154
# Hints, and the check of files: read by `dunekettle`, which has set `program` and `files`.

# clean: standard input without bytes that change a terminal
clean() { LC_ALL=C tr '\001-\011\013-\037\177' '?'; }

# printable: standard input with nothing but what ASCII prints
printable() { LC_ALL=C tr -c '[:print:]\n' '?'; }

# advise TEXT: a hint, in one line
advise() { say "$(printf '%s' "$1" | clean | tr '\n' '?')"; }

# quoted WORD: as a word of a shell; FILE if it has bytes that a terminal doesn't show
quoted() {
    case $1 in
    '' | *[!A-Za-z0-9._/+,-]*)
        if [ "$(printf '%s.' "$1" | clean)" != "$1." ] || [ "${1#*"$dk_nl"}" != "$1" ]; then echo FILE; return; fi
        printf "'%s'\n" "$(printf '%s' "$1" | sed "s/'/'\\\\''/g")"
        ;;
    *) printf '%s\n' "$1" ;;
    esac
}

# quoted_name FILE: the same of a name, which no tool takes for an option or, as awk does, for an assignment
quoted_name() { case $1 in /*) quoted "$1" ;; -* | *=*) quoted "./$1" ;; *) quoted "$1" ;; esac; }

# installed PLACE OTHER: that place in the installation, or else the other, where it is in the repository
installed() {
    root=$(CDPATH='' cd -P -- "$files/../.." 2> /dev/null && pwd)
    if [ -n "$root" ] && [ -e "$root/$1" ]; then printf '%s\n' "$root/$1"; else printf '%s\n' "$2"; fi
}
page() { installed "share/doc/$dk_name/docs/$1" "docs/$1"; }
recipe() { installed "share/dunekettle/recipes/$1" "recipes/$1"; }

# kind_of FILE: what its first bytes say, and if it is text its first lines
kind_of() {
    case $(od -A n -t x1 -N 16 < "$1" | tr -d ' \n') in
    1f8b*)
        case $(gzip -dc < "$1" 2> /dev/null | od -A n -t x1 -N 4) in *'42 41 4d 01'*) echo BAM ;; *) echo gzip ;; esac
        ;;
    42414d01*) echo BAM ;;
    4352414d*) echo CRAM ;;
    425a68*) echo bzip2 ;;
    fd377a58*) echo xz ;;
    28b52ffd*) echo zstd ;;
    efbbbf*) echo 'byte order mark' ;;
    fffe* | feff*) echo UTF-16 ;;
    ??00*) echo UTF-16LE ;;
    00??*) echo UTF-16BE ;;
    *) LC_ALL=C awk -v only=kind -f "$files/check.awk" < "$1" ;;
    esac
}

# pipe_for KIND FILE: the command that makes BED (or text) of it, or nothing
pipe_for() {
    set -- "$1" "$(quoted_name "$2")"
    case $1$dk_command in
    BAMbamtobed | CRAMbamtobed) printf '%s\n' "samtools view $2" ;;
    BAM* | CRAM*) printf '%s\n' "samtools view $2 | dunekettle bamtobed" ;;
    gzip*) printf '%s\n' "zcat $2" ;;
    bzip2*) printf '%s\n' "bzcat $2" ;;
    xz*) printf '%s\n' "xzcat $2" ;;
    zstd*) printf '%s\n' "zstdcat $2" ;;
    SAMbamtobed) ;;
    SAM*) printf '%s\n' "dunekettle bamtobed -i $2" ;;
    VCF*) printf '%s\n' "awk -F'\\t' -v OFS='\\t' '!/^#/ { print \$1, \$2 - 1, \$2 - 1 + length(\$4) }' $2" ;;
    GFF*) printf '%s\n' "awk -F'\\t' -v OFS='\\t' '!/^#/ { print \$1, \$4 - 1, \$5, \".\", 0, \$7 }' $2" ;;
    CR*) printf '%s\n' "tr '\\r' '\\n' < $2" ;;
    'byte order mark'*) printf '%s\n' "tail -c +4 $2" ;;
    UTF-16*) printf '%s\n' "iconv -f $1 -t UTF-8 $2" ;;
    spaces*) printf '%s\n' "tr -s ' ' '\\t' < $2" ;;
    'names of columns'*) printf '%s\n' "tail -n +2 $2" ;;
    esac
}

# hint FAULT COMMAND WORD..: what to do about a fault, in one line
hint() {
    fault=$1 dk_command=$2 dk_why=''
    shift 2
    # shellcheck source=words.sh source-path=SCRIPTDIR
    . "$files/words.sh"
    read_options "$@"
    text=${fault##*: }
    file=${fault#"bedtools $dk_command: "}
    file=${file%": $text"}
    case $fault in
    "bedtools $dk_command: "*': cannot be opened') hint_unopened ;;
    "bedtools $dk_command: "*:[0-9]*': '*) number=${file##*:} file=${file%:*}; hint_place "$@" ;;
    "bedtools: argument is not UTF-8") ;;
    "bedtools: "*)
        # shellcheck source=usage.sh source-path=SCRIPTDIR
        . "$files/usage.sh"
        hint_usage "$@"
        ;;
    esac
}

# hint_wait COMMAND WORD..: says that standard input, a terminal, is read, if these words can be used and read it
hint_wait() {
    dk_command=$1 dk_why=''
    shift
    # shellcheck source=words.sh source-path=SCRIPTDIR
    . "$files/words.sh"
    read_options "$@"
    reads_terminal || return 0
    try_words "$@"
    [ -n "$dk_why" ] ||
        say "$dk_command waits for lines from the terminal. Ctrl-D ends them. See dunekettle help $dk_command"
}

# reads_terminal: whether the options of a command have it read standard input
reads_terminal() {
    for word in "$dk_a" "$dk_b" "$dk_fi" "$dk_bed" "$dk_g"; do case $word in - | stdin) return 0 ;; esac; done
    case $dk_command$dk_i in
    merge- | complement- | genomecov- | bamtobed- | mergestdin | complementstdin | genomecovstdin | bamtobedstdin) ;;
    *) return 1 ;;
    esac
}

# warn_names: that names of one input begin with chr, and those of the other don't, as `names_fit` has found
warn_names() {
    names="$dk_a has $dk_first, $dk_b has $dk_found, and names are compared byte for byte"
    advise "warning: $names. All of them: dunekettle check $(quoted_name "$dk_a") $(quoted_name "$dk_b")"
}

hint_unopened() {
    if [ "$file" = "$dk_fo" ]; then advise "$file can't be made, or it is an input under another name"
    elif [ ! -e "$file" ]; then advise "$file isn't there"
    elif [ -d "$file" ]; then advise "$file is a directory"
    elif [ ! -r "$file" ]; then advise "you may not read $file: ls -l shows who may"
    fi
}

hint_place() {
    case $text in
    'chromosome is repeated' | 'length is not a number' | 'chromosome is not in the genome file' | 'too few columns')
        ! hint_genome || return 0
        ;;
    esac
    case $text in
    'too few columns' | 'start is not a number' | 'end is not a number' | 'start is not below end' | 'text before'*)
        hint_kind "$@"
        ;;
    'reading failed') [ ! -d "$file" ] || advise "$file is a directory" ;;
    'record is out of order') hint_mark "$@" || hint_order ;;
    'chromosome is not in the genome file' | 'no such sequence from here on') hint_mark "$@" || hint_name ;;
    esac
}

# hint_genome: what -g takes, if it was given a file of another kind
hint_genome() {
    [ -n "$dk_g" ] && ! is_stream "$dk_g" || return
    [ "$file" = "$dk_g" ] || [ "$text" = 'chromosome is not in the genome file' ] || return
    kind=$(kind_of "$dk_g")
    case $kind in
    BED) is_bed "$dk_g" || return; more='' ;;
    FASTA) more=", as samtools faidx $(quoted_name "$dk_g") makes it" ;;
    GFF | SAM | VCF) more='' ;;
    *) return 1 ;;
    esac
    advise "$dk_g is $kind. -g takes names and lengths: a genome file or a .fai index$more"
}

# is_bed FILE: whether its first records have a start and an end
is_bed() {
    LC_ALL=C awk -F '\t' '/^(#|track|browser)/ { next } $2 !~ /^[0-9]+$/ || $3 !~ /^[0-9]+\r?$/ { exit 1 }
        ++records > 4 { exit }' < "$1"
}

hint_kind() {
    if is_stream "$file"; then
        [ "$number" != 1 ] || say 'standard input may be of another kind: zcat, or samtools view, makes text of it'
        return
    fi
    kind=$(kind_of "$file")
    if [ "$dk_command$kind" = bamtobedBED ]; then
        advise "$file is BED, not SAM text: bamtobed makes BED of alignments"
        return
    fi
    pipe=$(pipe_for "$kind" "$file")
    case $pipe$text in
    'start is not below end') hint_ends ;;
    ?*"$text") advise "$(in_words "$kind"): $pipe$(piped_words "$@")" ;;
    *) say "line $number is: $(sed -n "${number}p" < "$file" | cut -c 1-60 | LC_ALL=C tr -c '[:print:]\n' ' ')" ;;
    esac
}

# A record without a base, or one whose ends are exchanged
hint_ends() {
    ends=$(sed -n "${number}p" < "$file" | LC_ALL=C awk -F '\t' '$2 + 0 > $3 + 0 { print $1, $2, $3 }' | printable)
    if [ -n "$ends" ]; then
        advise "line $number is $ends, and has its start after its end: is it a record at all, and are both exchanged?"
    else
        advise "records without a base are left out by awk -F'\\t' '\$2 + 0 != \$3 + 0' $(quoted_name "$file")"
    fi
}

# piped_words WORD..: the rest of a pipe, in which standard input is read instead of the file, if nothing else reads it
piped_words() {
    piped=''
    while [ $# -gt 0 ]; do
        if takes_value "$1" && [ $# -gt 1 ]; then
            case $1 in
            -i | -a | -b | -fi | -bed)
                case $2 in
                "$file") piped="$piped $1 -" ;;
                - | stdin | /dev/*) return ;;
                *) piped="$piped $1 $(quoted "$2")" ;;
                esac
                ;;
            *) piped="$piped $1 $(quoted "$2")" ;;
            esac
            shift
        else
            piped="$piped $(quoted "$1")"
        fi
        shift
    done
    printf '%s\n' " | dunekettle $dk_command$piped"
}

# in_words KIND
in_words() {
    case $1 in
    gzip | bzip2 | xz | zstd) echo "it is compressed by $1" ;;
    'byte order mark') echo 'it begins with a byte order mark' ;;
    CR) echo 'its lines end with CR alone' ;;
    spaces) echo 'its columns are separated by spaces' ;;
    'names of columns') echo 'its first line names the columns' ;;
    *) echo "it is $1" ;;
    esac
}

# sort_line FILE: how to sort it by the order in use
sort_line() {
    genome=$dk_g
    case $1 in -) ;; *) set -- "$(quoted_name "$1")" ;; esac
    if [ "$dk_command" = maskfasta ]; then genome=$dk_fi.fai; printf 'samtools faidx %s; ' "$(quoted_name "$dk_fi")"; fi
    if [ -n "$genome" ]; then
        printf '%s' "awk -F'\\t' 'NR == FNR { rank[\$1] = NR; next } { print rank[\$1] + 0 \"\\t\" \$0 }' "
        printf '%s\n' "$(quoted_name "$genome") $1 | sort -s -t \"\$(printf '\\t')\" -k1,1n -k3,3n | cut -f 2-"
    else
        printf '%s\n' "LC_ALL=C sort -k1,1 -k2,2n $1"
    fi
}

# hint_mark WORD..: what to do about a byte order mark, which makes another name of the first one
hint_mark() {
    ! is_stream "$file" && [ "$(kind_of "$file")" = 'byte order mark' ] || return
    advise "$(in_words 'byte order mark'): $(pipe_for 'byte order mark' "$file")$(piped_words "$@")"
}

# The record, the one before it, the order in use and how to sort by it
hint_order() {
    case $dk_command in maskfasta) order='the sequences' ;; *) order=${dk_g:-"the names' bytes"} ;; esac
    if is_stream "$file"; then
        advise "the order in use is that of $order: $(sort_line -)"
        return
    fi
    places=$(LC_ALL=C awk -F '\t' -v at="$number" '
        NR == at { print $1, $2, $3, "comes after", before; print $1 == name; exit }
        NF && !/^(#|(track|browser)([ \t\r]|$))/ { before = $1 " " $2 " " $3; name = $1 }' < "$file" | printable)
    more=', or give the chromosomes in their order by -g'
    if [ "$order" != "the names' bytes" ] || [ "${places##*"$dk_nl"}" = 1 ]; then more=''; fi
    advise "${places%"$dk_nl"?}; the order in use is that of $order: $(sort_line "$file")$more"
}

# The names of the genome file, or of the sequences, that differ from the record's by chr, zeros, letters' case, or MT
# for M. A sequence of that name that comes earlier is a matter of order.
hint_name() {
    names=$dk_g
    [ "$dk_command" != maskfasta ] || names=$dk_fi
    if is_stream "$file" || is_stream "$names"; then
        advise "the names of $file have to be those of $names, byte for byte"
        return
    fi
    near=$({ sed -n "${number}p" < "$file"; all_names; } | LC_ALL=C awk -F '\t' '
        function plain(name) {
            name = tolower(name)
            sub(/^chr_?/, "", name)
            sub(/^0+/, "", name)
            return name == "mt" ? "m" : name
        }
        NR == 1 { wanted = $1; next }
        /^#/ { next }
        $1 == wanted { is_there = 1 }
        plain($1) == plain(wanted) { found = found " " $1 }
        NR < 5 { first = first " " $1 }
        END {
            if (!is_there) print wanted (found != "" ? " is there as" found : " is not there, but" first " ..")
        }' | printable)
    if [ -n "$near" ]; then advise "in $names $near"; else hint_order; fi
}

# The lines of the genome file, or the names of the sequences
all_names() {
    case $dk_command$dk_words in
    maskfasta*' -fullHeader '*) sed -n 's/^>//p' < "$dk_fi" ;;
    maskfasta*) sed -n "s/^>\\([^ $dk_tab]*\\).*/\\1/p" < "$dk_fi" ;;
    *) cat -- "$dk_g" ;;
    esac
}

# check FILE.. [-g GENOME] [--json]: status 0 if the seven commands can take each file
check() {
    dk_g='' json='' status=0 dk_command=merge names='' several='' ended=''
    count=$#
    while [ "$count" -gt 0 ]; do
        case $ended$1 in
        -g)
            if [ "$count" = 1 ] || [ ! -f "$2" ]; then say 'check: -g needs a genome file'; exit 2; fi
            dk_g=$2
            shift
            count=$((count - 1))
            ;;
        --json) json=1 ;;
        --) ended=/ ;;
        -*) advise "check: unknown option: $1"; exit 2 ;;
        *) set -- "$@" "$1" ;;
        esac
        shift
        count=$((count - 1))
    done
    [ $# -gt 0 ] || { say 'check FILE.. [-g GENOME] [--json]'; exit 2; }
    [ $# -eq 1 ] || several=1
    genome=$dk_g
    export genome json
    separator='['
    for file; do
        [ -z "$json" ] || printf '%s' "$separator"
        separator=', '
        check_file "$file"
    done
    [ -z "$json" ] || printf ']\n'
    [ -n "$json" ] || [ -z "$several" ] || unshared "$@"
    exit "$status"
}

# check_file FILE: writes what it is
check_file() {
    fault='' kind='' pipe='' input=/dev/null
    case $1 in - | stdin) set -- "./$1" ;; esac
    if [ ! -e "$1" ]; then fault="it isn't there"
    elif [ -d "$1" ]; then fault='it is a directory'
    elif [ ! -f "$1" ]; then fault='it is no file that can be read twice'
    elif [ ! -r "$1" ]; then fault='it may not be read'
    else
        kind=$(kind_of "$1")
        pipe=$(pipe_for "$kind" "$1")
        case $kind in
        BED | text | empty | spaces | 'names of columns')
            input=$1
            fault=$("$program" merge -i "$1" ${dk_g:+-g "$dk_g"} 2>&1 > /dev/null)
            ;;
        SAM) input=$1 pipe=''; fault=$("$program" bamtobed -i "$1" 2>&1 > /dev/null) ;;
        FASTA) input=$1; fault=$("$program" maskfasta -fi "$1" -bed /dev/null 2>&1 > /dev/null) ;;
        'genome file') input=$1; fault=$("$program" merge -i /dev/null -g "$1" 2>&1) ;;
        *) fault=$(in_words "$kind") ;;
        esac
    fi
    [ -z "$fault" ] || status=1
    case $fault in *'out of order') pipe=$(sort_line "$1") ;; esac
    file=$1 kind=$kind fault=$fault pipe=$pipe LC_ALL=C awk -f "$files/check.awk" < "$input"
}

# unshared FILE..: the names that some of the files lack
unshared() {
    for file; do
        [ ! -f "$file" ] || case $(kind_of "$file") in
        BED) printf '\t%s\n' "$(printf '%s' "$file" | clean | tr '\n' '?')"; cat -- "$file" ;;
        esac
    done | LC_ALL=C awk -F '\t' '
        /^\t/ { files++; name = $2; next }
        /^#/ || /^(track|browser)([ \t\r]|$)/ || NF < 3 { next }
        !(($1, files) in seen) { seen[$1, files]; if (!in_files[$1]++) names[++count] = $1; last[$1] = name }
        END {
            for (i = 1; i <= count && shown < 9; i++) {
                times = in_files[names[i]]
                if (times == files) continue
                shown++
                print names[i] ": in " times " of " files " files, as " last[names[i]]
            }
        }' | clean
}
