#!/bin/bash
# 200 samples of 50 intervals each, one call for each
set -euo pipefail
for sample in samples/*.bed; do
    bedtools intersect -u -a "$sample" -b blacklist_few.bed
done
