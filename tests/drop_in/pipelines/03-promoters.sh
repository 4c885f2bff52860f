#!/bin/bash
# Promoters that a peak hits: the kilobase before each gene.
set -euo pipefail

bedtools flank -i genes.bed -g chrom.sizes -l 1000 -r 0 -s | bedtools sort -i - > promoters.bed
bedtools intersect -u -a promoters.bed -b peaks_1.narrowPeak
