#!/bin/bash
# Exons merged by strand, in both ways of saying it.
set -euo pipefail

bedtools merge -s -c 6 -o distinct -i exons.bed
bedtools merge -S + -i exons.bed
