#!/bin/bash
# CNV: the part of the genome in which copies can be counted.
set -euo pipefail

LC_ALL=C sort -k1,1 -k2,2n gaps.bed blacklist.bed | bedtools merge -i - -d 1000 > excluded.bed
bedtools complement -i excluded.bed -g sorted.sizes > callable.bed
bedtools subtract -a callable.bed -b <(zcat rmsk.bed.gz) > unique.bed
bedtools intersect -v -f 0.5 -a segments.bed -b excluded.bed > segments.callable.bed
cat unique.bed segments.callable.bed
