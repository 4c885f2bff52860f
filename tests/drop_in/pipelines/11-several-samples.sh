#!/bin/bash
# Which of three samples hit each gene, and how often.
set -euo pipefail

bedtools intersect -C -filenames -a genes.bed -b peaks_1.narrowPeak peaks_2.narrowPeak peaks_3.narrowPeak
bedtools intersect -wa -wb -names one two -a genes.bed -b peaks_1.narrowPeak peaks_2.narrowPeak | cut -f 1-4,7
