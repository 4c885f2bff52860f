#!/bin/bash
# Two programs at once, with named pipes between them.
set -euo pipefail

rm -f genes.fifo peaks.fifo
mkfifo genes.fifo peaks.fifo
zcat peaks.bed.gz > peaks.fifo &
bedtools merge -i genes.bed > genes.fifo &
bedtools intersect -u -a genes.fifo -b peaks.fifo
wait
bedtools intersect -c -a <(bedtools merge -i genes.bed) -b <(zcat peaks.bed.gz | cut -f 1-3)
