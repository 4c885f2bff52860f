#!/bin/bash
set -euo pipefail
zcat peaks_1.bed.gz peaks_2.bed.gz peaks_3.bed.gz | LC_ALL=C sort -k1,1 -k2,2n |
    dunekettle-bedtools merge | dunekettle-bedtools subtract -a - -b blacklist.bed |
    dunekettle-bedtools intersect -u -a - -b promoters.bed
