#!/bin/bash
# Reads of each exon, on sorted files, in the order of the genome file.
set -euo pipefail

bedtools bamtobed -i reads.bam > reads.bed
bedtools sort -g chrom.sizes -i exons.bed > exons.sorted.bed
bedtools intersect -sorted -g chrom.sizes -c -a exons.sorted.bed -b reads.bed
bedtools intersect -sorted -g chrom.sizes -u -a reads.bed -b exons.sorted.bed | wc -l
