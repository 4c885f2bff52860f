#!/bin/bash
# Repeats in lower case.
set -euo pipefail

bedtools maskfasta -soft -fi small.fa -bed repeats.bed -fo masked.fa
cat masked.fa
