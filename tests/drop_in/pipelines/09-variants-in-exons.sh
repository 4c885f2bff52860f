#!/bin/bash
# The variants of a VCF file in exons, with its header.
set -euo pipefail

bedtools intersect -header -u -a calls.vcf -b exons.bed
