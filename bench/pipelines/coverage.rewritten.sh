#!/bin/bash
# The reads are sorted by the genome file's order already.
set -euo pipefail
samtools view reads.bam | dunekettle-bedtools bamtobed |
    dunekettle-bedtools genomecov -bg -g genome.txt > depth.bedgraph
awk '$4 >= 10' depth.bedgraph | wc -l
cat depth.bedgraph
