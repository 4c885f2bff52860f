#!/bin/bash
# Exons without a read are read off their counts.
set -euo pipefail
samtools view reads.bam | dunekettle-bedtools bamtobed | dunekettle-bedtools intersect -c -a exons.bed -b - > counts.bed
awk -F'\t' -v OFS='\t' '$7 == 0 { print $1, $2, $3, $4, $5, $6 }' counts.bed > silent.bed
cat counts.bed silent.bed
