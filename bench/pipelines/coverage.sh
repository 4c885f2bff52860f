#!/bin/bash
# depth of the reads of a BAM file
set -euo pipefail
bedtools bamtobed -i reads.bam | LC_ALL=C sort -k1,1 -k2,2n | bedtools genomecov -bg -i - -g genome.txt > depth.bedgraph
awk '$4 >= 10' depth.bedgraph | wc -l
cat depth.bedgraph
