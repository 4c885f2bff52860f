#!/bin/bash
# Peaks with the genes that they hit, the nearest one, and those far from any.
set -euo pipefail

bedtools intersect -wa -wb -a peaks_1.narrowPeak -b <(grep -v '^#' genes.bed) | cut -f 1-4,14
bedtools closest -d -a peaks_1.narrowPeak -b genes.bed | awk '$NF > 5000 { print $4 }'
bedtools intersect -v -sorted -a peaks_1.narrowPeak -b genes.bed
