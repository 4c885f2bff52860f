#!/bin/bash
# ChIP: peaks of each sample without those of the control, and the genes that they hit.
set -euo pipefail

for sample in 1 2 3; do
    bedtools subtract -A -a peaks_$sample.narrowPeak -b peaks_8.narrowPeak > specific.bed
    bedtools intersect -v -a specific.bed -b blacklist.bed > specific.clean.bed
    bedtools intersect -u -a specific.clean.bed -b genes.bed | sort -k7,7gr | awk 'NR <= 500'
    bedtools intersect -c -a genes.bed -b specific.clean.bed | awk '$7 > 0' | cut -f 4,7
done
bedtools intersect -wa -wb -a genes.bed -b specific.clean.bed | cut -f 4 | uniq -c
