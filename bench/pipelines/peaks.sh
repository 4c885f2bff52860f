#!/bin/bash
# peaks of three samples, merged, less a blacklist, in promoters
set -euo pipefail
zcat peaks_1.bed.gz peaks_2.bed.gz peaks_3.bed.gz | LC_ALL=C sort -k1,1 -k2,2n > all.bed
bedtools merge -i all.bed > merged.bed
bedtools subtract -a merged.bed -b blacklist.bed > clean.bed
bedtools intersect -u -a clean.bed -b promoters.bed
