#!/bin/bash
# Capture: the parts of the targets with fewer than ten reads.
set -euo pipefail

bedtools genomecov -bga -ibam capture.bam > capture.bedgraph
awk '$4 < 10' capture.bedgraph | bedtools merge -i - > low.bed
bedtools sort -g chrom.sizes -i targets.bed |
    bedtools intersect -sorted -g chrom.sizes -a - -b low.bed > low.targets.bed
bedtools subtract -a targets.bed -b low.targets.bed | awk '{ bases += $3 - $2 } END { print bases }'
cat low.targets.bed
