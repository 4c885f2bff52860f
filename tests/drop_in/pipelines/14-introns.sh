#!/bin/bash
# The introns: genes without the exons of their strand.
set -euo pipefail

bedtools subtract -s -a genes.bed -b exons.bed | bedtools sort -i - > introns.bed
bedtools merge -i introns.bed
bedtools intersect -c -a introns.bed -b peaks_3.narrowPeak | awk '$7 > 0'
