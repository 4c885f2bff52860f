#!/bin/bash
# What pybedtools calls: whole paths, and files of its own for what it makes.
set -euo pipefail

made=$PWD/pybedtools.made
bedtools sort -i "$PWD/exons.bed" > "$made.1.tmp"
bedtools merge -i "$made.1.tmp" -d 100 > "$made.2.tmp"
bedtools intersect -a "$made.2.tmp" -b "$PWD/genes.bed" -u > "$made.3.tmp"
bedtools subtract -a "$PWD/genes.bed" -b "$made.3.tmp" > "$made.4.tmp"
bedtools intersect -a "$made.3.tmp" -b "$PWD/peaks_1.narrowPeak" -c > "$made.5.tmp"
bedtools intersect -sorted -wo -a "$PWD/genes.bed" -b "$made.2.tmp" > "$made.6.tmp"
bedtools complement -i "$made.2.tmp" -g "$PWD/sorted.sizes" > "$made.7.tmp"
bedtools genomecov -i "$PWD/exons.bed" -bg -g "$PWD/chrom.sizes" > "$made.8.tmp"
cat "$made".?.tmp
