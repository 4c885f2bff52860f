#!/bin/bash
# Peaks of three samples, merged, with the samples of each and their mean score.
set -euo pipefail

cat peaks_1.narrowPeak peaks_2.narrowPeak peaks_3.narrowPeak | LC_ALL=C sort -k1,1 -k2,2n |
    bedtools merge -i - -c 4,5 -o distinct,mean
