#!/bin/bash
# RNA: introns of each strand, and the reads there that go against it.
set -euo pipefail

bedtools subtract -s -a genes.bed -b exons.bed | LC_ALL=C sort -k1,1 -k2,2n > introns.bed
bedtools bamtobed -i rna.bam | LC_ALL=C sort -k1,1 -k2,2n > rna.bed
bedtools intersect -sorted -s -c -a introns.bed -b rna.bed > sense.txt
bedtools intersect -sorted -S -c -a introns.bed -b rna.bed > antisense.txt
paste sense.txt antisense.txt | awk '$14 > $7'
