#!/bin/bash
# ATAC: the cuts at both ends of the fragments, as a track and in the peaks of each sample.
set -euo pipefail

zcat fragments.bed.gz | awk -v OFS='\t' '{ print $1, $2, $2 + 1; print $1, $3 - 1, $3 }' |
    LC_ALL=C sort -k1,1 -k2,2n > cuts.bed
bedtools genomecov -bg -i cuts.bed -g chrom.sizes > cuts.bedgraph
for sample in 1 2 3; do
    bedtools intersect -sorted -c -a peaks_$sample.narrowPeak -b cuts.bed > cuts_in_peaks_$sample.bed
done
bedtools merge -d 150 -i cuts.bed | awk '$3 - $2 > 500' > accessible.bed
cksum cuts.bedgraph cuts_in_peaks_?.bed accessible.bed
