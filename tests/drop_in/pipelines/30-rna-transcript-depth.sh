#!/bin/bash
# RNA: how many transcripts have each base in an exon.
set -euo pipefail

bedtools genomecov -split -bg -i transcripts.bed12 -g chrom.sizes > isoforms.bedgraph
bedtools genomecov -split -bg -strand + -i transcripts.bed12 -g chrom.sizes > forward.bedgraph
awk '$4 > 1' isoforms.bedgraph | bedtools merge -i - > shared.bed
bedtools intersect -c -a genes.bed -b shared.bed
cksum isoforms.bedgraph forward.bedgraph
