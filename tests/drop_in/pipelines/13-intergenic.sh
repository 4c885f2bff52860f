#!/bin/bash
# The regions between genes, without blacklisted ones.
set -euo pipefail

bedtools sort -g chrom.sizes -i genes.bed > genes.sorted.bed
bedtools complement -i genes.sorted.bed -g chrom.sizes > intergenic.bed
bedtools subtract -a intergenic.bed -b blacklist.bed
