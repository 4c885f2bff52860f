#!/bin/bash
# RNA: how many blocks of reads are in exons, and how many are in introns.
set -euo pipefail

bedtools sort -i exons.bed | bedtools merge -i - > exonic.bed
bedtools bamtobed -split -i rna.bam | LC_ALL=C sort -k1,1 -k2,2n > blocks.bed
bedtools intersect -sorted -u -a blocks.bed -b exonic.bed | wc -l
bedtools intersect -sorted -v -a blocks.bed -b exonic.bed | bedtools intersect -sorted -u -a - -b genes.bed | wc -l
