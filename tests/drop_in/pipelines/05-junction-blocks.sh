#!/bin/bash
# The aligned blocks of spliced reads, merged.
set -euo pipefail

bedtools bamtobed -split -i reads.bam | LC_ALL=C sort -k1,1 -k2,2n > blocks.bed
bedtools merge -i blocks.bed
bedtools genomecov -bg -i blocks.bed -g sorted.sizes
