#!/bin/bash
# CNV: the reads of each bin of ten kilobases, without gaps of the assembly.
set -euo pipefail

bedtools makewindows -g sorted.sizes -w 10000 > bins.bed
bedtools intersect -v -a bins.bed -b gaps.bed > bins.clean.bed
for sample in chip input; do
    bedtools bamtobed -i $sample.bam | LC_ALL=C sort -k1,1 -k2,2n |
        bedtools intersect -sorted -c -a bins.clean.bed -b - > $sample.bins.bed
done
paste chip.bins.bed input.bins.bed | awk '{ print $1, $2, $3, ($4 + 1) / ($8 + 1) }'
