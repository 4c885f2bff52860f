#!/bin/bash
# A bedGraph of the reads, for a genome browser, scaled to a million.
set -euo pipefail

bedtools bamtobed -i reads.bam | LC_ALL=C sort -k1,1 -k2,2n > reads.bed
bedtools genomecov -bg -i reads.bed -g sorted.sizes > raw.bedgraph
bedtools genomecov -bg -scale 0.01 -i reads.bed -g sorted.sizes > scaled.bedgraph
cat raw.bedgraph scaled.bedgraph
