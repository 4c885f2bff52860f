#!/bin/bash
# Unsorted windows that a gene hits, and what is left of them.
set -euo pipefail

bedtools intersect -u -a unsorted.bed -b genes.bed
bedtools subtract -a unsorted.bed -b genes.bed
