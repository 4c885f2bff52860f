#!/bin/bash
# The exons of transcripts, merged, and the transcripts whose exons a peak hits.
set -euo pipefail

bedtools bed12tobed6 -i transcripts.bed12 | bedtools sort -i - | bedtools merge -i -
bedtools intersect -split -u -a transcripts.bed12 -b peaks_2.narrowPeak
