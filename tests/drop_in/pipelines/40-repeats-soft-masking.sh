#!/bin/bash
# Repeats: the sequences with repeats in lower case, and with N.
set -euo pipefail

bedtools maskfasta -soft -fi contigs.fa -bed contig.repeats.bed -fo soft.fa
bedtools maskfasta -fi contigs.fa -bed contig.repeats.bed -fo hard.fa
cksum soft.fa hard.fa
