#!/bin/bash
# The depths of an annotation, as a histogram and as a track with all bases.
set -euo pipefail

bedtools sort -g chrom.sizes -i exons.bed > exons.natural.bed
bedtools genomecov -i exons.natural.bed -g chrom.sizes > exons.hist
bedtools genomecov -bga -i exons.natural.bed -g chrom.sizes > exons.bedgraph
bedtools genomecov -bg -strand - -i exons.natural.bed -g chrom.sizes | bedtools merge -i - > reverse.bed
grep '^genome' exons.hist
cksum exons.hist exons.bedgraph reverse.bed
