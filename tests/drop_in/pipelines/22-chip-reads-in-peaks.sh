#!/bin/bash
# ChIP: the reads of each sample in peaks, and of each peak, without blacklisted ones.
set -euo pipefail

bedtools subtract -A -a peaks_1.narrowPeak -b blacklist.bed > peaks.clean.bed
for sample in chip input; do
    bedtools bamtobed -i $sample.bam | LC_ALL=C sort -k1,1 -k2,2n > $sample.bed
    bedtools intersect -v -sorted -a $sample.bed -b blacklist.bed > $sample.clean.bed
    bedtools intersect -u -sorted -a $sample.clean.bed -b peaks.clean.bed | wc -l
    bedtools intersect -c -sorted -a peaks.clean.bed -b $sample.clean.bed | cut -f 11 > $sample.counts.txt
done
paste chip.counts.txt input.counts.txt
