#!/bin/bash
# Each chromosome in a process of its own, by xargs.
set -euo pipefail

bedtools bamtobed -i chip.bam > all.bed
cut -f 1 chrom.sizes > names.txt
xargs -P 2 -I{} sh -c 'grep -w "^{}" all.bed > "reads.{}.bed"' < names.txt
xargs -P 2 -I{} sh -c 'bedtools merge -d 100 -i "reads.{}.bed" > "merged.{}.bed"' < names.txt
xargs -P 2 -I{} sh -c 'bedtools intersect -c -sorted -a "merged.{}.bed" -b "reads.{}.bed" > "counts.{}.bed"' < names.txt
xargs -I{} cat "counts.{}.bed" < names.txt | cksum
