#!/bin/bash
# Capture: the reads on and off the targets.
set -euo pipefail

bedtools bamtobed -i capture.bam > capture.bed
bedtools merge -d 20 -i targets.bed > merged.targets.bed
bedtools intersect -sorted -g chrom.sizes -u -a capture.bed -b <(bedtools sort -g chrom.sizes -i merged.targets.bed) |
    wc -l
bedtools complement -i merged.targets.bed -g sorted.sizes > off.bed
bedtools intersect -u -f 1 -a capture.bed -b off.bed | wc -l
bedtools coverage -hist -sorted -g sorted.sizes -a merged.targets.bed -b exons.bed | grep '^all'
