#!/bin/bash
# Repeats: the bases of each family in promoters, and promoters without repeats.
set -euo pipefail

bedtools flank -i genes.bed -g sorted.sizes -l 1000 -r 0 -s | LC_ALL=C sort -k1,1 -k2,2n > promoters.bed
for family in Alu L1 MIR simple LTR; do
    zcat rmsk.bed.gz | grep -w $family | bedtools merge -i - > $family.bed
    bedtools intersect -wo -sorted -a promoters.bed -b $family.bed |
        awk -v f=$family '{ bases[$4] += $NF } END { for (g in bases) print f, g, bases[g] }' | sort
    bedtools intersect -u -sorted -a promoters.bed -b $family.bed | wc -l
done
bedtools intersect -v -a promoters.bed -b rmsk.bed.gz
