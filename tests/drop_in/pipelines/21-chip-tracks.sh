#!/bin/bash
# ChIP: the coverage of each sample, scaled to a million reads.
set -euo pipefail

for sample in chip input; do
    scale=$(samtools view -c -F 4 $sample.bam | awk '{ printf "%.6f", 1000000 / $1 }')
    bedtools genomecov -ibam $sample.bam -bg -scale "$scale" > $sample.bedgraph
done
cat chip.bedgraph input.bedgraph | cksum
