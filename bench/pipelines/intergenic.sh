#!/bin/bash
# what genes and repeats leave of each chromosome
set -euo pipefail
awk -F'\t' -v OFS='\t' '$3 == "gene" { print $1, $4 - 1, $5 }' genes.gtf | LC_ALL=C sort -k1,1 -k2,2n > genes.bed
bedtools merge -i genes.bed > merged.bed
bedtools complement -i merged.bed -g genome.txt > gaps.bed
bedtools subtract -a gaps.bed -b repeats.bed
