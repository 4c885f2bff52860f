# Completions of dunekettle for bash, made by tools/completions.py.
_dunekettle() {
    local word=${COMP_WORDS[COMP_CWORD]} command=${COMP_WORDS[1]-} line lines=()
    COMPREPLY=()
    if ((COMP_CWORD == 1)); then
        lines=(
            'merge  (joins features that overlap or touch, and writes the chromosome, start and end of each interval)'
            'complement  (writes the parts of each chromosome that no feature covers)'
            'intersect  (finds the features B of -b that overlap each feature A of -a)'
            'subtract  (removes from each feature A of -a the bases of the features B of -b that overlap it)'
            'genomecov  (writes how many features cover each base, as intervals of one depth)'
            'bamtobed  (writes each alignment of SAM text as a BED line)'
            'maskfasta  (writes the lines of a FASTA file, with N instead of each base that a record of the BED file covers)'
            'help  (shows the options of a command)'
            'check  (says whether the commands can take a file, and why not)'
            'report  (says how many calls of a pipeline Dunekettle took, and why not the others)'
        )
    else
        case $command:${COMP_WORDS[COMP_CWORD - 1]} in
        merge:-i | merge:-g | complement:-i | complement:-g | intersect:-a | intersect:-b | intersect:-g | subtract:-a | subtract:-b | subtract:-g | genomecov:-i | genomecov:-g | bamtobed:-i | maskfasta:-fi | maskfasta:-bed | maskfasta:-fo | check:-g) compopt -o default; return ;;
        merge:-S | genomecov:-strand) lines=(+ -) ;;
        merge:-d | intersect:-f | intersect:-held | subtract:-f | subtract:-held | maskfasta:-mc) return ;;
        help:*) lines=(merge complement intersect subtract genomecov bamtobed maskfasta) ;;
        report:*) compopt -o default; return ;;
        check:*) [[ $word == -* ]] || { compopt -o default; return; } ;;&
        merge:*) lines=(
            '-i  (the features)'
            '-g  (the chromosomes in their order)'
            '-d  (also joins features that are up to N bases apart)'
            '-s  (merges the features of each strand separately)'
            '-S  (merges only the features on this strand, by the sixth column)'
        ) ;;
        complement:*) lines=(
            '-i  (the features)'
            '-g  (the chromosomes, their lengths and their order)'
            '-L  (leaves out chromosomes that have no feature)'
        ) ;;
        intersect:*) lines=(
            '-a  (the features A)'
            '-b  (the features B)'
            '-g  (the chromosomes in their order)'
            '-wa  (writes the complete A for each hit, instead of the shared part)'
            '-wb  (writes B after the shared part of A for each hit)'
            '-wo  (writes the complete A, then B and the number of bases that they share, for each hit)'
            '-u  (writes A once if it has a hit)'
            '-v  (writes A if it has no hit)'
            '-c  (writes A and the number of its hits, which may be 0)'
            '-f  (a hit shares at least the fraction F of the bases of A)'
            '-r  (a hit also shares the fraction of -f of the bases of B)'
            '-s  (a hit is on the strand of A)'
            '-sorted  (accepted, and changes nothing)'
            '-held  (ends the run if it would keep more than N features B in memory)'
        ) ;;
        subtract:*) lines=(
            '-a  (the features A)'
            '-b  (the features B)'
            '-g  (the chromosomes in their order)'
            '-A  (leaves out each A that has a hit, completely)'
            '-f  (a hit shares at least the fraction F of the bases of A)'
            '-s  (a hit is on the strand of A)'
            '-held  (ends the run if it would keep more than N features B in memory)'
        ) ;;
        genomecov:*) lines=(
            '-i  (the features)'
            '-g  (the chromosomes, their lengths and their order)'
            '-bg  (writes the intervals with a depth above 0)'
            '-bga  (writes all intervals, also those with depth 0)'
            '-strand  (counts only the features on this strand, by the sixth column)'
        ) ;;
        bamtobed:*) lines=(
            '-i  (the SAM text)'
            '-split  (cuts each alignment at the N operations of its CIGAR (introns))'
            '-cigar  (writes the CIGAR as a seventh column)'
        ) ;;
        maskfasta:*) lines=(
            '-fi  (the sequences)'
            '-bed  (the records that mask them, in the order of the sequences)'
            '-fo  (the file to write to, which is made or emptied)'
            '-soft  (writes lower case instead of N, and any byte except A to Z as it was)'
            '-mc  (writes the character C instead of N)'
            '-fullHeader  (takes the whole header after > as the sequence'\''s name, with its spaces)'
        ) ;;
        check:*) lines=(
            '-g  (the order of the chromosomes)'
            '--json  (writes JSON)'
        ) ;;
        esac
    fi
    for line in "${lines[@]}"; do
        [[ $line == "$word"* ]] && COMPREPLY+=("$line")
    done
    ((${#COMPREPLY[@]} != 1)) || COMPREPLY=("${COMPREPLY[0]%%  (*}")
}
complete -F _dunekettle dunekettle
