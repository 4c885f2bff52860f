# shellcheck shell=sh disable=SC2034,SC2154
# Whether the program writes for these files what the original writes: read by the drop-in of `dunekettle`. Whatever is
# uncertain goes to the original.
#
# Three files without a name serve the looks: `dk_spans` has each chromosome with its first start and its last end,
# `dk_genome` the chromosomes in an order that was found, and `dk_spare` what one step writes for the next.
#
# An awk of which only the status counts has /dev/null as its output: some end with a fault if theirs is closed.

# Larger than any end
dk_far=999999999999
# A byte order mark, the byte by which bedtools knows gzip, and CR
dk_mark=$(printf '\357\273\277 \037 \r')
dk_zipped=${dk_mark#* } dk_cr=${dk_mark##* }
dk_mark=${dk_mark%% *} dk_zipped=${dk_zipped% *}
dk_kilobyte=xxxx
for dk_round in 1 2 3 4; do dk_kilobyte=$dk_kilobyte$dk_kilobyte$dk_kilobyte$dk_kilobyte; done
# bedtools cuts a line as it writes it, when a start may have eight digits more.
dk_kilobyte=${dk_kilobyte#????????}

# look_at FILE [GENOME]: sets `dk_why` if merge doesn't take it, or if bedtools passes over lines of it or cuts them;
# else fills `dk_spans`
look_at() {
    find_spans "$@"
    [ -n "$dk_why" ] || look_at_names "$1"
    [ -n "$dk_why" ] || look_at_lines "$1"
}

# find_spans FILE [GENOME]: fills `dk_spans`, or sets `dk_why`
find_spans() {
    "$dk_program" merge -d "$dk_far" -i "$1" ${2:+-g "$2"} < /dev/null > "$dk_spans" 2> "$dk_spare" &
    await $! || failed "$(tail -n 1 < "$dk_spare")"
}

# look_at_names FILE: chromosomes that bedtools passes over, ends for which its bins may lack a hit, and names that all
# begin with chr, where none of another input does
look_at_names() {
    LC_ALL=C awk -F '\t' '
        tolower($1) ~ /^(track|browser|visibility|!|>|chr[ \013\014\r]|chrom([ \013\014\r]|$))/ { is_odd = 1; exit }
        $3 > 536870912 { is_odd = 1; exit }
        tolower($1) ~ /^chr/ { with_chr++ }
        END { exit is_odd ? 1 : NR && with_chr == NR ? 20 : NR && !with_chr ? 21 : 0 }' < "$dk_spans" > /dev/null
    case $?$dk_prefix in
    2021 | 2120) dk_why='the names of one input begin with chr, and those of the other do not: bedtools warns' ;;
    20*) dk_prefix=20 ;;
    21*) dk_prefix=21 ;;
    0*) ;;
    *) dk_why="$1 has lines that bedtools passes over, or an end above 536,870,912" ;;
    esac
}

# look_at_lines FILE
look_at_lines() {
    dk_line=''
    IFS= read -r dk_line < "$1" 2> /dev/null
    case $dk_line in
    '##fileformat=VCF'* | "$dk_mark"*) dk_why="$1 is VCF, or has a byte order mark"; return ;;
    "$dk_zipped"*) dk_why="$1 begins as a gzip file"; return ;;
    esac
    LC_ALL=C tr -dc '\000' < "$1" > "$dk_spare" &
    if ! await $! || [ -s "$dk_spare" ]; then dk_why="$1 has a NUL"; return; fi
    LC_ALL=C grep -qaE "^.?\$|$dk_cr$dk_cr|^##fileformat=VCF" < "$1" &
    await $!
    [ $? = 1 ] || { dk_why="$1 has a blank line, CR CR, or a header line of VCF"; return; }
    has_short_lines "$1" || dk_why="$1 has a line of over 1,015 bytes"
}

# has_short_lines FILE: whether no line has a kilobyte, with x for each byte. One that comes last says that all came.
has_short_lines() {
    { LC_ALL=C tr -c '\n' x < "$1" && printf '\n%s\n' "$dk_kilobyte"; } |
        LC_ALL=C grep -caF "$dk_kilobyte" > "$dk_spare" &
    await $! && IFS= read -r dk_line < "$dk_spare" && [ "$dk_line" = 1 ]
}

# has_strands PATTERN FILE: whether the sixth column of each record is one of these letters alone
has_strands() {
    LC_ALL=C grep -qavE "^(#|track|browser|([^$dk_tab]*$dk_tab){5}$1($dk_tab|$dk_cr?\$))" < "$2" &
    await $!
    [ $? = 1 ]
}

# write_both FILE FILE: writes them, after each a line with a tab alone. Where one is missing, what came was cut off.
write_both() { cat < "$1" && printf '\t\n' && cat < "$2" && printf '\t\n'; }

# is_bam FILE
is_bam() { [ "$(gzip -dc < "$1" 2> /dev/null | head -c 3)" = BAM ]; }
dk_part=judge.sh
