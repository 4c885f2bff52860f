#!/bin/bash
# Capture: how much of the genome has each depth, up to a hundred.
set -euo pipefail

bedtools genomecov -ibam capture.bam -max 100 > capture.hist
grep '^genome' capture.hist | awk '{ above += $5; print $2, above }'
cksum capture.hist
