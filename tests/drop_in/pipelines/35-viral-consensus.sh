#!/bin/bash
# Viral: a consensus with N where fewer than twenty reads are.
set -euo pipefail

bedtools genomecov -d -ibam virus.bam > depth.txt
bedtools genomecov -bga -ibam virus.bam | awk '$4 < 20' | bedtools merge -i - > low.virus.bed
bedtools maskfasta -fi virus.fa -bed low.virus.bed -fo consensus.fa
bedtools intersect -wa -wb -a primers.bed -b low.virus.bed
cat consensus.fa
awk '{ sum += $3 } END { print sum / NR }' depth.txt
