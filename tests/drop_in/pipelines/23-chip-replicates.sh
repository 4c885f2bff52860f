#!/bin/bash
# ChIP: the peaks that two of four replicates have, by make.
set -euo pipefail

rm -f clean_?.bed common_?_?.bed
make --silent -j 2 -f - all <<'END'
all: common_1_2.bed common_1_3.bed common_1_4.bed common_2_3.bed common_2_4.bed common_3_4.bed
clean_%.bed: peaks_%.narrowPeak
	bedtools intersect -v -a $< -b blacklist.bed > $@
.SECONDEXPANSION:
common_%.bed: clean_$$(firstword $$(subst _, ,$$*)).bed clean_$$(lastword $$(subst _, ,$$*)).bed
	bedtools intersect -f 0.5 -r -u -a $(word 1,$^) -b $(word 2,$^) > $@
END
LC_ALL=C sort -k1,1 -k2,2n common_?_?.bed | bedtools merge -i stdin
