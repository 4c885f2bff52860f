#!/bin/bash
# ATAC: the fragments at the starts of genes.
set -euo pipefail

awk -v OFS='\t' '{ at = $6 == "+" ? $2 : $3; print $1, (at > 1000 ? at - 1000 : 0), at + 1000, $4 }' genes.bed |
    LC_ALL=C sort -k1,1 -k2,2n > tss.bed
bedtools intersect -u -a fragments.bed.gz -b tss.bed | wc -l
zcat fragments.bed.gz | bedtools intersect -sorted -c -a tss.bed -b - | sort -k5,5nr -k4,4 | awk 'NR <= 1000'
bedtools intersect -v -a tss.bed -b fragments.bed.gz
