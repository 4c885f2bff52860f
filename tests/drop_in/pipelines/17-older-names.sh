#!/bin/bash
# A script from before there was one program for all.
set -euo pipefail

sortBed -i unsorted.bed | mergeBed -i - > merged.bed
intersectBed -u -a merged.bed -b genes.bed
subtractBed -a merged.bed -b exons.bed
complementBed -i exons.bed -g sorted.sizes
