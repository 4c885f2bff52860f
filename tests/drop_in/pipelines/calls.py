#!/usr/bin/env python3
"""27 calls of pybedtools on sorted files, in the folder of the trial: a line with the sum of what each gives."""

import hashlib

import pybedtools


def show(name, made):
    """The lines of a result, by their sum."""
    text = "".join(map(str, made)).encode()
    print(name, len(text), hashlib.md5(text).hexdigest())


def main():
    genes, exons, peaks = map(pybedtools.BedTool, ("genes.bed", "exons.bed", "peaks_1.narrowPeak"))
    small = pybedtools.BedTool("chr1 10 60 a 0 +\nchr1 40 90 b 0 -\nchr2 5 9 c 0 +\n", from_string=True)
    show("merge", exons.merge())
    show("merge-d", exons.merge(d=100))
    show("merge-S", exons.merge(S="+"))
    show("merge-c", exons.merge(c=4, o="count"))
    show("merge-string", small.merge())
    show("complement", exons.complement(g="sorted.sizes"))
    show("complement-L", exons.complement(g="sorted.sizes", L=True))
    show("intersect", genes.intersect(peaks, sorted=True))
    show("intersect-u", genes.intersect(peaks, u=True))
    show("intersect-v", genes.intersect(peaks, v=True))
    show("intersect-c", genes.intersect(peaks, c=True))
    show("intersect-wa", exons.intersect(peaks, wa=True))
    show("intersect-wb", exons.intersect(peaks, wb=True, sorted=True))
    show("intersect-wo", exons.intersect(peaks, wo=True))
    show("intersect-f", exons.intersect(peaks, f=0.5, u=True))
    show("intersect-f-r", exons.intersect(peaks, f=0.25, r=True, u=True))
    show("intersect-s", exons.intersect(genes, s=True, c=True))
    show("intersect-stream", exons.intersect(peaks, u=True, stream=True))
    show("intersect-several", genes.intersect([peaks.fn, exons.fn], c=True))
    show("subtract", genes.subtract(exons))
    show("subtract-A", exons.subtract(peaks, A=True))
    show("subtract-s", genes.subtract(exons, s=True))
    show("minus", exons - peaks)
    show("plus", exons + peaks)
    show("coverage-bg", exons.genome_coverage(bg=True, g="sorted.sizes"))
    show("coverage-bga", exons.genome_coverage(bga=True, g="sorted.sizes"))
    show("bam", pybedtools.BedTool("reads.bam").bam_to_bed(split=True))


if __name__ == "__main__":
    main()
