#compdef dunekettle
# Completions of dunekettle for zsh, made by tools/completions.py.
local -a commands
commands=(
    'merge:joins features that overlap or touch, and writes the chromosome, start and end of each interval'
    'complement:writes the parts of each chromosome that no feature covers'
    'intersect:finds the features B of -b that overlap each feature A of -a'
    'subtract:removes from each feature A of -a the bases of the features B of -b that overlap it'
    'genomecov:writes how many features cover each base, as intervals of one depth'
    'bamtobed:writes each alignment of SAM text as a BED line'
    'maskfasta:writes the lines of a FASTA file, with N instead of each base that a record of the BED file covers'
    'help:shows the options of a command'
    'check:says whether the commands can take a file, and why not'
    'report:says how many calls of a pipeline Dunekettle took, and why not the others'
)
if ((CURRENT == 2)); then
    _describe command commands
    return
fi
local command=$words[2]
shift words
((CURRENT--))
case $command in
help)
    _describe command commands ;;
report)
    _files ;;
merge)
    _arguments \
        '-i[the features]:FILE:_files' \
        '-g[the chromosomes in their order]:GENOME:_files' \
        '-d[also joins features that are up to N bases apart]:N: ' \
        '-s[merges the features of each strand separately]' \
        '-S[merges only the features on this strand, by the sixth column]:+ or -:(+ -)' ;;
complement)
    _arguments \
        '-i[the features]:FILE:_files' \
        '-g[the chromosomes, their lengths and their order]:GENOME:_files' \
        '-L[leaves out chromosomes that have no feature]' ;;
intersect)
    _arguments \
        '-a[the features A]:FILE:_files' \
        '-b[the features B]:FILE:_files' \
        '-g[the chromosomes in their order]:GENOME:_files' \
        '-wa[writes the complete A for each hit, instead of the shared part]' \
        '-wb[writes B after the shared part of A for each hit]' \
        '-wo[writes the complete A, then B and the number of bases that they share, for each hit]' \
        '-u[writes A once if it has a hit]' \
        '-v[writes A if it has no hit]' \
        '-c[writes A and the number of its hits, which may be 0]' \
        '-f[a hit shares at least the fraction F of the bases of A]:F: ' \
        '-r[a hit also shares the fraction of -f of the bases of B]' \
        '-s[a hit is on the strand of A]' \
        '-sorted[accepted, and changes nothing]' \
        '-held[ends the run if it would keep more than N features B in memory]:N: ' ;;
subtract)
    _arguments \
        '-a[the features A]:FILE:_files' \
        '-b[the features B]:FILE:_files' \
        '-g[the chromosomes in their order]:GENOME:_files' \
        '-A[leaves out each A that has a hit, completely]' \
        '-f[a hit shares at least the fraction F of the bases of A]:F: ' \
        '-s[a hit is on the strand of A]' \
        '-held[ends the run if it would keep more than N features B in memory]:N: ' ;;
genomecov)
    _arguments \
        '-i[the features]:FILE:_files' \
        '-g[the chromosomes, their lengths and their order]:GENOME:_files' \
        '-bg[writes the intervals with a depth above 0]' \
        '-bga[writes all intervals, also those with depth 0]' \
        '-strand[counts only the features on this strand, by the sixth column]:+ or -:(+ -)' ;;
bamtobed)
    _arguments \
        '-i[the SAM text]:FILE:_files' \
        '-split[cuts each alignment at the N operations of its CIGAR (introns)]' \
        '-cigar[writes the CIGAR as a seventh column]' ;;
maskfasta)
    _arguments \
        '-fi[the sequences]:FASTA:_files' \
        '-bed[the records that mask them, in the order of the sequences]:BED:_files' \
        '-fo[the file to write to, which is made or emptied]:FILE:_files' \
        '-soft[writes lower case instead of N, and any byte except A to Z as it was]' \
        '-mc[writes the character C instead of N]:C: ' \
        '-fullHeader[takes the whole header after > as the sequence'\''s name, with its spaces]' ;;
check)
    _arguments \
        '-g[the order of the chromosomes]:GENOME:_files' \
        '--json[writes JSON]' \
        '*:file:_files' ;;
esac
