#!/bin/bash
# Bases of each depth on the merged exons.
set -euo pipefail

bedtools merge -i exons.bed > targets.bed
bedtools genomecov -ibam reads.bam -bg > depth.bedgraph
bedtools intersect -sorted -g chrom.sizes -a depth.bedgraph -b <(bedtools sort -g chrom.sizes -i targets.bed) |
    awk -v OFS='\t' '{ bases[$4] += $3 - $2 } END { for (depth in bases) print depth, bases[depth] }' | sort -n
