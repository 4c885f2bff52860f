#!/bin/bash
# complement merges what overlaps.
set -euo pipefail
awk -F'\t' -v OFS='\t' '$3 == "gene" { print $1, $4 - 1, $5 }' genes.gtf | LC_ALL=C sort -k1,1 -k2,2n |
    dunekettle-bedtools complement -g genome.txt | dunekettle-bedtools subtract -a - -b repeats.bed
