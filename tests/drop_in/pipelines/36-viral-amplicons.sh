#!/bin/bash
# Viral: the reads of the amplicons of both pools of primers, as a workflow calls it.
set -euo pipefail

bedtools bamtobed -i virus.bam > virus.bed
for pool in 1 2; do
    awk -v pool=$pool '$5 == pool' primers.bed > pool_$pool.bed
    bash -c "set -euo pipefail; bedtools intersect -sorted -c -a pool_$pool.bed -b virus.bed > counts_$pool.bed"
    bash -c "set -euo pipefail; bedtools intersect -sorted -u -f 0.9 -a virus.bed -b pool_$pool.bed | wc -l"
    bash -c "set -euo pipefail; bedtools subtract -a virus.bed -b pool_$pool.bed | wc -l"
done
bedtools intersect -F 0.5 -c -a primers.bed -b virus.bed
cat counts_?.bed
