#!/bin/bash
# Peaks of two replicates that overlap by half of each.
set -euo pipefail

bedtools intersect -f 0.5 -r -u -a peaks_1.narrowPeak -b peaks_2.narrowPeak
bedtools intersect -f 0.5 -r -wo -a peaks_1.narrowPeak -b peaks_2.narrowPeak |
    awk '{ bases += $NF } END { print bases }'
