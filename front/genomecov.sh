# shellcheck shell=sh disable=SC2034,SC2154
# Calls of genomecov that the program of the drop-in leaves to this script: other orders of chromosomes, one strand,
# blocks, BAM files, and depths of a million. They are made of -bg and -bga of the program, from files alone: read by
# the drop-in of `dunekettle`. The file `dk_names` has the chromosomes in the order in which they come. Whatever is
# uncertain goes to the original.
#
#     words.sh    what the words say
#     files.sh    what all of these use
#     judge.sh    what is in the files
#     through.sh  what awk makes of the program's output

# cover COMMAND WORD..: becomes the program or the original, or writes what awk makes of the program's output
cover() {
    dk_command=$1 dk_why='' dk_children='' dk_folder='' dk_prefix=''
    shift
    judge_call "$@"
    heed_signals
    [ -n "$dk_why" ] || open_files spans spare genome names || dk_why='TMPDIR takes no file, or too many are open'
    if [ -z "$dk_why" ]; then
        if [ -n "$dk_ibam" ]; then cover_alignments
        elif has_word -split; then cover_blocks
        else cover_features
        fi
    fi
    [ -n "$dk_why" ] || write_coverage
    by_original "$dk_why" "$dk_command" "$@"
}

# judge_call WORD..: sets `dk_why` if the words, the sizes of the files or the original leave the call to that
judge_call() {
    read_options "$@"
    dk_room=${DUNEKETTLE_ROOM:-268435456} dk_small=${DUNEKETTLE_SMALL:-262144}
    case $dk_room/$dk_small in
    *[!0-9]*/* | */*[!0-9]*) dk_why='DUNEKETTLE_ROOM or DUNEKETTLE_SMALL is no number'; return ;;
    esac
    [ -n "$dk_why" ] || judge_words "$@"
    [ -n "$dk_why" ] || judge_tools
    [ -n "$dk_why" ] || judge_worth
    [ -n "$dk_why" ] || judge_version
}

# judge_words WORD..: sets `dk_why` if the original has to take them. Sets `dk_form`.
judge_words() {
    dk_form=''
    while [ $# -gt 0 ]; do
        case $1 in
        -i | -ibam | -g | -strand | -scale | -max) shift ;;
        -bg | -bga | -d | -dz) [ -z "$dk_form" ] || dk_why="$dk_form and $1 are two forms"; dk_form=$1 ;;
        -split) ;;
        *) dk_why="genomecov $1 isn't known" ;;
        esac
        shift
    done
    case $dk_strand in '' | + | -) ;; *) dk_why="$dk_strand is no strand" ;; esac
    case $dk_max in *[!0-9]* | 0* | ??????????*) dk_why="-max $dk_max isn't known" ;; esac
    case $dk_scale in *[!0-9.]* | *.*.* | .* | *. | ???????????*) dk_why="-scale $dk_scale isn't known" ;; esac
    case $dk_form in
    -bg | -bga) [ -z "$dk_max" ] || dk_why="-max beside $dk_form isn't known" ;;
    *) [ -z "$dk_scale" ] || dk_why="-scale without -bg or -bga isn't known" ;;
    esac
    if [ -n "$dk_ibam" ]; then ! has_word -i || dk_why='-i beside -ibam'
    elif ! has_word -i || [ -z "$dk_g" ]; then dk_why='bedtools needs -i and -g'
    fi
}

# judge_tools: sets `dk_why` if something lacks
judge_tools() {
    if [ ! -f "$dk_program" ] || [ ! -s "$dk_program" ] || [ ! -x "$dk_program" ]; then
        dk_why="there is no $dk_program"
        return
    fi
    for dk_tool in awk cat cut df grep head mktemp rm sort tail tr wc; do
        command -v "$dk_tool" > /dev/null || { dk_why="there is no $dk_tool"; return; }
    done
    has_parts whole.awk order_genome.awk float.awk histogram.awk each_base.awk scaled.awk bed12_blocks.awk \
        sam_blocks.awk sam_genome.awk || { dk_why='the installation is broken'; return; }
    tells_failed_writes || dk_why='awk ends well where a write failed'
}

# judge_worth: sets `dk_why` where the original is quicker than a look at the files. It goes over each base of the
# genome.
judge_worth() {
    dk_input=${dk_ibam:-$dk_i}
    for dk_file in "$dk_input" ${dk_g:+"$dk_g"}; do
        if is_stream "$dk_file"; then dk_why="$dk_file is a stream"; return; fi
    done
    if [ ! -f "$dk_input" ] || [ ! -r "$dk_input" ]; then dk_why="$dk_input is no file that can be read"; return; fi
    dk_bytes=$(($(wc -c < "$dk_input")))
    if [ -n "$dk_ibam" ]; then
        alignments_pay || dk_why='bedtools goes over its genome as quickly, or there is no samtools'
        return
    fi
    # With lines of 50 bytes
    if [ "$dk_bytes" -lt "$((dk_small * 6))" ] && ! is_large_genome; then
        find_original
        [ -z "$dk_original" ] || dk_why='its inputs are small'
    fi
}

# alignments_pay: whether samtools is there, and the genome of -ibam is large beside its bytes
alignments_pay() {
    command -v samtools > /dev/null || return
    samtools view -H "$dk_ibam" < /dev/null 2> /dev/null | LC_ALL=C awk -v bytes="$dk_bytes" '
        /^@SQ/ && match($0, /\tLN:[0-9]+/) { bases += substr($0, RSTART + 4, RLENGTH - 4) }
        END { exit bases < 20000000 || bases < bytes * 2 }' > /dev/null
}

is_large_genome() {
    LC_ALL=C awk -F '\t' '{ bases += $2 } END { exit bases < 20000000 }' < "$dk_g" > /dev/null 2>&1
}

# judge_version: sets `dk_why` if the original isn't one that all was compared with, and the words aren't some for which
# all versions write the same
judge_version() {
    case $dk_words in *' -strand '* | *' -split '* | *' -scale '* | *' -ibam '*) ;; *' -bg '*) return ;; esac
    find_original
    [ -n "$dk_original" ] || return 0
    case $(DUNEKETTLE_TRIED=${DUNEKETTLE_TRIED-}:$dk_original "$dk_original" --version < /dev/null 2> /dev/null) in
    'bedtools v2.30.0'* | 'bedtools v2.31.'*) ;;
    *) dk_why="what $dk_original does with these words wasn't tried" ;;
    esac
}

# write_coverage: writes what the words ask for, of the file `dk_i` with the genome file `dk_genome`
write_coverage() {
    [ -z "$dk_names" ] || close_files "$dk_names"
    set -- -i "$dk_i" -g "$dk_genome" ${dk_strand:+-strand "$dk_strand"}
    case $dk_form in
    -d | -dz | '') write_form "$@" -bga ;;
    esac
    set -- "$@" "$dk_form"
    if [ -n "$dk_scale" ] || is_deep "$@"; then write_form "$@"; fi
    close_files "$dk_spans" "$dk_spare"
    by_program 'its words and its files are as it takes them' "$dk_command" "$@"
}

# look_at_chromosomes FILE: sets `dk_why` unless each line of it is a chromosome that bedtools reads as such
look_at_chromosomes() {
    LC_ALL=C awk -F '\t' '
        $0 == "" { next }
        /^#|\r/ || $1 == "" || $1 in seen || $2 !~ /^[1-9][0-9]*$/ { bad = 1; exit }
        length($2) > 10 || $2 + 0 > 2147483647 { bad = 1; exit }
        { seen[$1]; bases += $2 }
        END { exit bad || !bases || bases > 4294967295 }' < "$1" > /dev/null 2>&1 ||
        dk_why="the chromosomes of $1 may be others for bedtools"
}

# order_genome FILE: fills `dk_genome` with its chromosomes, first those of `dk_names`, then the others. The file may be
# `dk_genome` itself.
order_genome() {
    if dk_lines=$(write_both "$dk_names" "$1" | LC_ALL=C awk -f "$dk_files/order_genome.awk") &&
        printf '%s\n' "$dk_lines" > "$dk_genome"; then
        return
    fi
    dk_why='the order of its chromosomes finds no room'
}

# cover_features: looks at a BED file, whose chromosomes may have any order
cover_features() {
    look_at_chromosomes "$dk_g"
    [ -n "$dk_why" ] || look_at_ordered "$dk_i" "$dk_g"
    [ -n "$dk_why" ] || [ -z "$dk_strand" ] || pick_strand
    [ -n "$dk_why" ] || [ "$dk_form" = -bg ] || order_by_spans "$dk_g"
}

# look_at_ordered FILE GENOME: the same as `look_at`, with a genome file in the order of the file
look_at_ordered() {
    order_genome "$2"
    [ -n "$dk_why" ] || look_at "$1" "$dk_genome"
    case $dk_why in *'record is out of order') ;; *) return ;; esac
    dk_why=''
    LC_ALL=C awk -F '\t' '($1 "") != last && !/^(#|track|browser)/ { print last = $1 "" }' < "$1" > "$dk_names" &
    await $! || dk_why="$1 can't be read"
    [ -n "$dk_why" ] || order_genome "$2"
    [ -n "$dk_why" ] || look_at "$1" "$dk_genome"
}

# order_by_spans GENOME: fills `dk_genome` with its chromosomes, first those that have features
order_by_spans() {
    LC_ALL=C cut -f 1 < "$dk_spans" > "$dk_names" || { dk_why='TMPDIR has no room for names'; return; }
    order_genome "$1"
}

# pick_strand: looks at the strands. Chromosomes without the strand come last in bedtools, unless with -bg.
pick_strand() {
    has_strands '[-+]' "$dk_i" || { dk_why="$dk_i has records without a strand"; return; }
    [ "$dk_form" != -bg ] || return 0
    dk_why='TMPDIR has no room for one strand'
    if ! has_room "$(wc -c < "$dk_i")" || ! open_files picked; then return; fi
    LC_ALL=C awk -F '\t' -v strand="$dk_strand" '$6 == strand || $6 == strand "\r"' < "$dk_i" > "$dk_picked" &
    await $! || return 0
    dk_why='' dk_i=$dk_picked dk_strand=''
    find_spans "$dk_i" "$dk_genome"
}

# cover_blocks: makes BED of the blocks of a file of BED12, and puts it into the place of -i
cover_blocks() {
    look_at_chromosomes "$dk_g"
    [ -n "$dk_why" ] || look_at_lines "$dk_i"
    [ -n "$dk_why" ] || open_blocks "$(($(wc -c < "$dk_i") * 4))"
    [ -z "$dk_why" ] || return 0
    # The empty line comes first once all is sorted.
    { LC_ALL=C awk -v strand="$dk_strand" -v names="$dk_names" -f "$dk_files/bed12_blocks.awk" < "$dk_i" && echo; } |
        LC_ALL=C sort -k4,4 -k2,2n > "$dk_blocks" 2> /dev/null &
    if await $! && IFS= read -r dk_line < "$dk_blocks" && [ -z "$dk_line" ]; then
        order_genome "$dk_g"
        look_at_blocks
    else
        dk_why="$dk_i isn't plain BED12"
    fi
}

# open_blocks BYTES: opens the file `dk_blocks`, or sets `dk_why`
open_blocks() { has_room "$1" && open_files blocks || dk_why='TMPDIR has no room for blocks'; }

# look_at_blocks: puts the blocks into the place of -i, if they are in the order of `dk_genome`
look_at_blocks() {
    dk_i=$dk_blocks dk_strand=''
    [ -n "$dk_why" ] || find_spans "$dk_i" "$dk_genome"
    [ -n "$dk_why" ] || look_at_names "$dk_i"
}

# cover_alignments: the same of a BAM file, by samtools, where that pays
cover_alignments() {
    is_bam "$dk_ibam" || { dk_why="$dk_ibam is no BAM"; return; }
    { samtools view -H "$dk_ibam" < /dev/null 2> /dev/null && echo; } |
        LC_ALL=C awk -f "$dk_files/whole.awk" -f "$dk_files/sam_genome.awk" > "$dk_genome" &
    if await $!; then look_at_chromosomes "$dk_genome"; else dk_why="samtools can't read the header of $dk_ibam"; fi
    [ -n "$dk_why" ] || find_blocks
    [ -n "$dk_why" ] || order_genome "$dk_genome"
    [ -n "$dk_why" ] || merge_blocks
    [ -n "$dk_why" ] || look_at_blocks
}

# find_blocks: writes the blocks of the alignments, of at most four times as much text as a stream may have. Those
# behind the first of a read are sorted, into the file `dk_later`.
find_blocks() {
    dk_most=$((dk_room * 4)) dk_gaps=''
    ! has_word -split || dk_gaps=1
    has_room "$((dk_most * 4))" || dk_most=$((dk_room / 2))
    open_blocks "$((dk_most * 4))"
    [ -n "$dk_why" ] || open_files later || dk_why='TMPDIR takes no file, or too many are open'
    [ -z "$dk_why" ] || return 0
    { samtools view -F 4 "$dk_ibam" < /dev/null 2> /dev/null && echo; } |
        LC_ALL=C awk -v gaps="$dk_gaps" -v strand="$dk_strand" -v most="$dk_most" -v names="$dk_names" \
            -v sorter="LC_ALL=C sort -k4,4 -k2,2n > $dk_later" -f "$dk_files/whole.awk" \
            -f "$dk_files/sam_blocks.awk" > "$dk_blocks" &
    await $! || dk_why="$dk_ibam is odd, or too long for TMPDIR"
}

# merge_blocks: puts the later blocks of reads among the first ones
merge_blocks() {
    [ -s "$dk_later" ] || return 0
    dk_first=$dk_blocks
    close_files "$dk_names"
    dk_names=''
    open_files blocks || { dk_why='TMPDIR takes no file, or too many are open'; return; }
    LC_ALL=C sort -m -k4,4 -k2,2n "$dk_first" "$dk_later" > "$dk_blocks" 2> /dev/null &
    await $! || dk_why='TMPDIR has no room for blocks'
    close_files "$dk_first" "$dk_later"
}

# is_deep WORD..: whether the program, which they run, may write a depth of a million: bedtools rounds it
is_deep() {
    if dk_lines=$(wc -l < "$dk_i") && [ "$dk_lines" -lt 1000000 ]; then return 1; fi 2> /dev/null
    ! writes_none '[0-9]{7}$' "$dk_program" genomecov "$@"
}

# write_form WORD..: writes what awk makes of the output of the program, which the words run
write_form() {
    tell "Dunekettle takes genomecov: awk makes ${dk_form:-the histogram}${dk_scale:+ times $dk_scale} of its output"
    case $dk_form in
    '') write_through 'float.awk histogram.awk' "${dk_max:-2147483647}" "$@" ;;
    -d | -dz) write_through 'float.awk each_base.awk' "$dk_form" "$@" ;;
    *) write_through 'float.awk scaled.awk' "${dk_scale:-1}" "$@" ;;
    esac
}
dk_part=genomecov.sh
