#!/bin/bash
# reads in each exon, from a BAM file
set -euo pipefail
bedtools bamtobed -i reads.bam > reads.bed
bedtools intersect -sorted -c -a exons.bed -b reads.bed > counts.bed
bedtools intersect -sorted -v -a exons.bed -b reads.bed > silent.bed
cat counts.bed silent.bed
