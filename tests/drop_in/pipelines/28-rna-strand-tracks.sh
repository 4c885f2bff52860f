#!/bin/bash
# RNA: the coverage of each strand by the blocks of spliced reads.
set -euo pipefail

for strand in + -; do
    bedtools genomecov -ibam rna.bam -bg -split -strand $strand > rna.bedgraph
    cksum < rna.bedgraph
done
bedtools genomecov -ibam rna.bam -bga -split | awk '$4 == 0' | bedtools merge -i - | wc -l
