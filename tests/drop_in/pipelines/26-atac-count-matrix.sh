#!/bin/bash
# ATAC: how many peaks of each of eight samples are in each of the merged ones.
set -euo pipefail

cat peaks_?.narrowPeak | LC_ALL=C sort -k1,1 -k2,2n | bedtools merge -i stdin > union.bed
for sample in 1 2 3 4 5 6 7 8; do
    bedtools merge -d 100 -i peaks_$sample.narrowPeak > merged_$sample.bed
    bedtools intersect -c -a union.bed -b peaks_$sample.narrowPeak | cut -f 4 > counts_$sample.txt
done
wc -l merged_?.bed
paste union.bed counts_?.txt
