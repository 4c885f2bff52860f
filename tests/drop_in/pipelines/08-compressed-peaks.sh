#!/bin/bash
# Compressed peaks in genes.
set -euo pipefail

bedtools intersect -wa -u -a peaks.bed.gz -b genes.bed | gzip -c > hits.bed.gz
gzip -dc hits.bed.gz
