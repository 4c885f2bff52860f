#!/bin/bash
set -euo pipefail
for sample in samples/*.bed; do
    dunekettle-bedtools intersect -u -a "$sample" -b blacklist_few.bed
done
