#!/bin/bash
# CNV: the genes in each segment, whole ones and parts, and segments without a gene.
set -euo pipefail

bedtools intersect -sorted -wa -wb -a segments.bed -b genes.bed > genes.of.segments.bed
bedtools intersect -f 1 -u -a genes.bed -b segments.bed | cut -f 4
bedtools intersect -wao -a segments.bed -b genes.bed |
    awk '$NF > 0 { bases[$4] += $NF } END { for (s in bases) print s, bases[s] }' | sort
bedtools intersect -loj -a segments.bed -b blacklist.bed | cut -f 1-4,6 | uniq | awk 'NR <= 1000'
bedtools intersect -c -a segments.bed -b exons.bed
bedtools subtract -a genes.bed -b segments.bed | wc -l
cut -f 4,8 genes.of.segments.bed
