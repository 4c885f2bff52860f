#!/bin/bash
# Exons of a GTF file as BED, merged, and its lines that a peak hits.
set -euo pipefail

awk -F'\t' -v OFS='\t' '$3 == "exon" { print $1, $4 - 1, $5 }' genes.gtf | LC_ALL=C sort -k1,1 -k2,2n > exons_of_gtf.bed
bedtools merge -d 10 -i exons_of_gtf.bed
bedtools intersect -u -a genes.gtf -b peaks_1.narrowPeak
