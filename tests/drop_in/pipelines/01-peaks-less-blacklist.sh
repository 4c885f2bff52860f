#!/bin/bash
# Peaks without those of the blacklist, and how many are left.
set -euo pipefail

bedtools intersect -v -a peaks_1.narrowPeak -b blacklist.bed > clean.bed
wc -l < clean.bed
cat clean.bed
