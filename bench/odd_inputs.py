"""Writes the odd inputs of the bench: each function writes into a folder, always the same bytes.

A workload of one file reads a.bed, one of two files a.bed and b.bed, bamtobed a.sam, and maskfasta a.fa and b.bed;
genome.txt is the genome file of those that take one."""

import itertools
import random

import workloads

HUMAN = [(name, length * 1_000_000) for name, length in workloads.CHROMOSOMES]
# The same in the order of a genome browser: not that of the names' bytes.
KARYOTYPE = sorted(HUMAN, key=lambda one: (len(one[0]), one[0]))
ONE = [("chr1", 249_000_000)]
# The chromosomes of a fly, 134 million bases, on which the genomecov of bedtools takes a second.
FLY = [("chr2L", 23_513_712), ("chr2R", 25_286_936), ("chr3L", 28_110_227), ("chr3R", 32_079_331), ("chr4", 1_348_131),
       ("chrX", 23_542_271)]
VIRUS = [("MN908947.3", 29_903)]
MITOCHONDRION = [("chrM", 16_569)]
# A chromosome of a salamander, whose positions don't fit into 31 bits.
LONG = [("chr1p", 3_100_000_000), ("chr1q", 2_900_000_000)]


def contigs(count, shortest, longest, name="JAHLQT{:09}.1"):
    """The contigs of a draft genome, of lengths up to the longest, in the order of the names' bytes."""
    numbers = random.Random(7)
    return [(name.format(at + 1_000_000), numbers.randint(shortest, longest)) for at in range(count)]


def write_lines(path, records, end="\n"):
    """Writes records, each of which is a tuple of its columns."""
    with open(path, "w", encoding="ascii", newline="") as lines:
        lines.writelines("\t".join(map(str, record)) + end for record in records)


def write_genome(folder, chromosomes):
    """Writes the genome file."""
    write_lines(folder / "genome.txt", chromosomes)


def places(numbers, chromosomes, count, shortest, longest):
    """Yields about `count` intervals at random places, each chromosome's in order."""
    total = sum(length for _, length in chromosomes)
    for name, length in chromosomes:
        for start in sorted(numbers.randrange(length - longest) for _ in range(count * length // total)):
            yield name, start, start + numbers.randint(shortest, longest)


def few_on_each(numbers, chromosomes, most, shortest, longest):
    """Yields 1 to `most` intervals on each chromosome, in order."""
    for name, length in chromosomes:
        for start in sorted(numbers.randrange(length - longest) for _ in range(numbers.randint(1, most))):
            yield name, start, start + numbers.randint(shortest, longest)


def with_strands(numbers, intervals, name="read{}"):
    """Adds a name, a score and a strand."""
    for at, interval in enumerate(intervals):
        yield *interval, name.format(at), numbers.randint(0, 60), numbers.choice("+-")


def with_blocks(numbers, records):
    """Adds the columns of twelve that a gene has, with one block for every 2,000 bases."""
    for name, start, stop, *columns in records:
        count = max(1, min(40, (stop - start) // 2000))
        step = (stop - start) // count
        sizes = [numbers.randint(1, step) for _ in range(count - 1)] + [step]
        starts = [step * at for at in range(count - 1)] + [stop - start - step]
        blocks = ("".join(f"{number}," for number in numbers_of_blocks) for numbers_of_blocks in (sizes, starts))
        yield name, start, stop, *columns, start, stop, 0, count, *blocks


def reads(numbers, chromosomes, count, shortest, longest):
    """Yields reads of six columns."""
    return with_strands(numbers, places(numbers, chromosomes, count, shortest, longest))


def two_drafts(folder):
    """Records on the contigs of a draft, from two runs of an annotation."""
    draft = contigs(300_000, 1_000, 20_000)
    write_genome(folder, draft)
    for file, seed in (("a.bed", 1), ("b.bed", 2)):
        numbers = random.Random(seed)
        write_lines(folder / file, with_strands(numbers, few_on_each(numbers, draft, 5, 100, 900)))


def comments(folder):
    """Reads, with a comment before each in the first input."""
    numbers = random.Random(1)
    lines = ((f"# read {at} was kept\n{name}", *columns)
             for at, (name, *columns) in enumerate(reads(numbers, HUMAN, 1_000_000, 149, 151)))
    write_lines(folder / "a.bed", lines)
    write_lines(folder / "b.bed", reads(numbers, HUMAN, 1_000_000, 50, 400))


def long_chromosome_names(folder):
    """Records on 1,000 contigs of an assembler, whose names have 75 bytes."""
    numbers = random.Random(1)
    assembled = contigs(1_000, 100_000, 900_000,
                        "assembly_of_sample_2024_north_NODE_{:07}_length_000123456_cov_000012.345678")
    write_genome(folder, assembled)
    for file in ("a.bed", "b.bed"):
        write_lines(folder / file, reads(numbers, assembled, 1_000_000, 100, 300))


def long_record_names(folder):
    """Records whose fourth column has 75 bytes."""
    numbers = random.Random(1)
    for file in ("a.bed", "b.bed"):
        intervals = places(numbers, HUMAN, 1_000_000, 100, 300)
        write_lines(folder / file,
                    with_strands(numbers, intervals, "A01234:567:HXXXXXDSXY:1:1101:{:07}:1000" + "x" * 34))


def spanned(folder):
    """1,000,000 records in 2,000, one of which spans the chromosome."""
    numbers = random.Random(1)
    write_lines(folder / "a.bed", reads(numbers, ONE, 1_000_000, 100, 200))
    write_lines(folder / "b.bed", [("chr1", 0, ONE[0][1]), *places(numbers, ONE, 1_999, 1_000, 50_000)])


def under_one_of_their_own(folder):
    """1,000,000 records, the first of which spans the chromosome, in 2,000."""
    numbers = random.Random(1)
    write_lines(folder / "a.bed", [("chr1", 0, ONE[0][1], "all", 0, "+"), *reads(numbers, ONE, 1_000_000, 100, 200)])
    write_lines(folder / "b.bed", places(numbers, ONE, 2_000, 1_000, 50_000))


def many_held(folder):
    """2,000 records, the first of which spans the chromosome, over 1,000,000."""
    numbers = random.Random(1)
    write_lines(folder / "a.bed", [("chr1", 0, ONE[0][1]), *places(numbers, ONE, 1_999, 1_000, 50_000)])
    write_lines(folder / "b.bed", places(numbers, ONE, 1_000_000, 100, 200))


def long_lines(folder):
    """Lines of 1,000 bytes."""
    numbers = random.Random(1)
    note = "".join(numbers.choice("abcdefgh;=") for _ in range(2_000))
    lines = ("\t".join(map(str, record)) for record in reads(numbers, HUMAN, 1_000_000, 100, 900))
    write_lines(folder / "a.bed", ((line, note[at % 1_000 :][: 998 - len(line)]) for at, line in enumerate(lines)))


def touching_reads(folder):
    """Records of which a third touch or overlap the one before."""
    workloads.write_records(folder / "a.bed", 1_000_000, 6, 1)


def exons_and_reads(folder):
    """100,000 exons of 50 to 400 bases, and 1,000,000 reads of 150, on a fiftieth of the human chromosomes."""
    workloads.write_features(folder / "a.bed", 1_000_000, workloads.EXONS, 1, workloads.Part(0.02))
    workloads.write_features(folder / "b.bed", 1_000_000, workloads.READS, 2, workloads.Part(0.02))


def amplicons(folder):
    """98 amplicons of a virus that overlap, and 1,000,000 reads of 150 bases."""
    numbers = random.Random(1)
    write_lines(folder / "a.bed",
                ((VIRUS[0][0], 30 + 303 * at, 430 + 303 * at, f"amplicon_{at + 1}") for at in range(98)))
    write_lines(folder / "b.bed", places(numbers, VIRUS, 1_000_000, 150, 150))


def mixed_reads(folder, count):
    """Reads of mixed lengths on a virus."""
    numbers = random.Random(9)
    starts = sorted(numbers.randint(0, 27_000) for _ in range(count))
    write_lines(folder / "a.bed",
                ((VIRUS[0][0], start, min(VIRUS[0][1], start + numbers.randint(500, 5_000))) for start in starts))
    write_genome(folder, VIRUS)


def hundred_thousand_mixed_reads(folder):
    mixed_reads(folder, 100_000)


def million_mixed_reads(folder):
    mixed_reads(folder, 1_000_000)


def plain(folder, end="\n"):
    """Records of three columns."""
    numbers = random.Random(1)
    write_genome(folder, FLY)
    for file in ("a.bed", "b.bed"):
        write_lines(folder / file, places(numbers, FLY, 1_000_000, 50, 150), end)


def crlf(folder):
    """The same with the line ends of Windows."""
    plain(folder, "\r\n")


def zero_padded(folder):
    """Records whose numbers have nine digits, with zeros before."""
    numbers = random.Random(1)
    write_genome(folder, HUMAN)
    for file in ("a.bed", "b.bed"):
        intervals = places(numbers, HUMAN, 1_000_000, 100, 2_000)
        write_lines(folder / file, ((name, f"{start:09}", f"{stop:09}") for name, start, stop in intervals))


def equal_starts(folder):
    """Reads from the sites of a restriction enzyme: 100 begin at each."""
    numbers = random.Random(1)
    write_genome(folder, FLY)
    for file in ("a.bed", "b.bed"):
        sites = places(numbers, FLY, 10_000, 300, 300)
        lines = ((name, start, start + numbers.randint(100, 300)) for name, start, _ in sites for _ in range(100))
        write_lines(folder / file, with_strands(numbers, lines))


def deep_fragments(folder):
    """Fragments of 50 to 700 bases that cover a mitochondrion 20,000 times."""
    numbers = random.Random(1)
    write_genome(folder, MITOCHONDRION)
    write_lines(folder / "a.bed", reads(numbers, MITOCHONDRION, 1_000_000, 50, 700))


def isoforms(folder):
    """The isoforms of 20,000 genes, 1 to 15 of each, as twelve columns, in both files."""
    numbers = random.Random(1)
    found = []
    for name, start, stop in places(numbers, HUMAN, 20_000, 2_000, 100_000):
        strand = numbers.choice("+-")
        slack = (stop - start) // 4
        found += ((name, start + numbers.randrange(slack), stop - numbers.randrange(slack), strand)
                  for _ in range(numbers.randint(1, 15)))
    found.sort(key=lambda one: one[:2])
    lines = list(with_blocks(numbers,
                             ((*place, f"ENST{at:011}.1", 0, strand) for at, (*place, strand) in enumerate(found))))
    for file in ("a.bed", "b.bed"):
        write_lines(folder / file, lines)


def many_pieces(folder):
    """The chromosomes, from each of which tens of thousands of repeats are taken."""
    numbers = random.Random(1)
    write_genome(folder, HUMAN)
    write_lines(folder / "a.bed", ((name, 0, length) for name, length in HUMAN))
    write_lines(folder / "b.bed", places(numbers, HUMAN, 1_000_000, 10, 600))


def write_sequences(folder, chromosomes, width):
    """Writes sequences in lines of one width."""
    numbers = random.Random(3)
    text = "".join(numbers.choice("ACGTacgtN") for _ in range(100_000)) * (1 + width // 100_000)
    with open(folder / "a.fa", "w", encoding="ascii") as lines:
        for name, length in chromosomes:
            lines.write(f">{name}\n")
            for at in range(0, length, width):
                first = at * 7 % 99_000
                lines.write(f"{text[first : first + min(width, length - at)]}\n")


def sequences_of_contigs(folder):
    """The sequences of a draft of 300,000 contigs, with 1 or 2 records each."""
    draft = contigs(300_000, 200, 600)
    write_sequences(folder, draft, 60)
    write_lines(folder / "b.bed", few_on_each(random.Random(1), draft, 2, 10, 100))


def one_long_line(folder):
    """A sequence of 50 million bases in one line, with 100,000 records."""
    sequence = [("chr22", 50_000_000)]
    write_sequences(folder, sequence, sequence[0][1])
    write_lines(folder / "b.bed", places(random.Random(1), sequence, 100_000, 10, 600))


def sequences_under_few(folder):
    """Five chromosomes of 20 million bases, with 1,000 records."""
    plant = [(f"Chr{at}", 20_000_000) for at in range(1, 6)]
    write_sequences(folder, plant, 80)
    write_lines(folder / "b.bed", places(random.Random(1), plant, 1_000, 1_000, 20_000))


def write_sam(folder, chromosomes, alignments):
    """Writes a SAM file of alignments: name, flag, place and CIGAR."""
    numbers = random.Random(5)
    bases = "".join(numbers.choice("ACGT") for _ in range(60_000))
    with open(folder / "a.sam", "w", encoding="ascii") as lines:
        lines.write("@HD\tVN:1.6\tSO:coordinate\n")
        lines.writelines(f"@SQ\tSN:{name}\tLN:{length}\n" for name, length in chromosomes)
        for read, flag, name, start, operations in alignments:
            count = sum(size for size, kind in operations if kind in "MIS")
            cigar = "".join(f"{size}{kind}" for size, kind in operations)
            first = start % (60_000 - count)
            lines.write(f"{read}\t{flag}\t{name}\t{start + 1}\t60\t{cigar}\t*\t0\t0\t{bases[first : first + count]}\t"
                        f"{'9' * count}\tNM:i:7\n")


def uuid(numbers):
    """The name of a nanopore read, of 36 bytes."""
    digits = f"{numbers.getrandbits(128):032x}"
    return "-".join((digits[:8], digits[8:12], digits[12:16], digits[16:20], digits[20:]))


def nanopore_operations(numbers, count):
    """The parts of a nanopore read's CIGAR, with that many gaps."""
    parts = [(numbers.randint(1, 30), "S")]
    for _ in range(count):
        parts += [(numbers.randint(3, 25), "M"), (numbers.randint(1, 3), numbers.choice("ID"))]
    return [*parts, (numbers.randint(3, 25), "M"), (numbers.randint(1, 30), "S")]


def nanopore_alignments(folder):
    """20,000 nanopore reads, whose CIGARs have hundreds of parts."""
    numbers = random.Random(1)
    starts = places(numbers, HUMAN, 20_000, 1, 20_000)
    write_sam(folder, HUMAN,
              ((uuid(numbers), numbers.choice((0, 16, 256, 2064)), name, start,
                nanopore_operations(numbers, numbers.randint(50, 500))) for name, start, _ in starts))


def spliced_alignments(folder):
    """100,000 spliced reads of complete transcripts: up to 40 exons, with gaps in them."""
    numbers = random.Random(1)

    def operations():
        parts = nanopore_operations(numbers, numbers.randint(0, 5))
        for _ in range(numbers.randint(0, 40)):
            parts[-1:] = [(numbers.randint(100, 5_000), "N"), (numbers.randint(20, 200), "M"), (5, "D"), (10, "M"),
                          parts[-1]]
        return parts

    starts = places(numbers, HUMAN, 100_000, 1, 300_000)
    write_sam(folder, HUMAN,
              ((uuid(numbers), numbers.choice((0, 16)), name, start, operations()) for name, start, _ in starts))


def short_alignments(folder):
    """500,000 mapped and unmapped reads of 75 bases, of pairs."""
    numbers = random.Random(1)
    starts = places(numbers, HUMAN, 500_000, 1, 1_000)
    kinds = ([(75, "M")], [(75, "M")], [(5, "S"), (70, "M")], [(30, "M"), (2, "D"), (45, "M")],
             [(40, "M"), (900, "N"), (35, "M")])
    write_sam(folder, HUMAN,
              ((f"K00:{at}", numbers.choice((99, 147, 83, 163, 77, 141)), name, start, numbers.choice(kinds))
               for at, (name, start, _) in enumerate(starts)))


def nanopore_reads(folder):
    """Nanopore reads of 200 to 50,000 bases under names of 36 bytes, and genes."""
    numbers = random.Random(1)
    write_genome(folder, HUMAN)
    intervals = places(numbers, HUMAN, 300_000, 200, 50_000)
    write_lines(folder / "a.bed",
                ((*interval, uuid(numbers), numbers.randint(0, 60), numbers.choice("+-")) for interval in intervals))
    write_lines(folder / "b.bed", reads(numbers, HUMAN, 60_000, 500, 100_000))


def blank_lines(folder):
    """Records that are apart, with a blank line after each."""
    numbers = random.Random(1)
    write_genome(folder, FLY)
    lines = ((name, start, start + numbers.randint(20, 120)) for name, length in FLY
             for start in range(0, length - 130, 130))
    write_lines(folder / "a.bed", lines, "\n\n")


def no_last_line_feed(folder):
    """Records of which the last one's line isn't ended."""
    plain(folder)
    for file in ("a.bed", "b.bed"):
        with open(folder / file, "rb+") as lines:
            lines.truncate((folder / file).stat().st_size - 1)


def many_columns(folder):
    """Records of 100 columns, as a table of samples has them."""
    numbers = random.Random(1)
    samples = "\t".join(str(numbers.randint(0, 99)) for _ in range(94))
    for file in ("a.bed", "b.bed"):
        write_lines(folder / file, ((*record, samples) for record in reads(numbers, HUMAN, 300_000, 100, 2_000)))


def genes_and_peaks(folder):
    """Genes of twelve columns, and peaks."""
    numbers = random.Random(1)
    genes = with_strands(numbers, places(numbers, HUMAN, 60_000, 500, 100_000), "NM_{:09}.1")
    write_lines(folder / "a.bed", with_blocks(numbers, genes))
    write_lines(folder / "b.bed", places(numbers, HUMAN, 200_000, 200, 2_000))


def tiny_chromosomes(folder):
    """Reads on 200,000 transcripts of 100 to 300 bases."""
    numbers = random.Random(1)
    transcripts = contigs(200_000, 100, 300, "ENST{:011}.1")
    write_genome(folder, transcripts)
    for file in ("a.bed", "b.bed"):
        write_lines(folder / file, few_on_each(numbers, transcripts, 9, 20, 75))


def one_chromosome(folder):
    """Reads and variants on one chromosome."""
    numbers = random.Random(1)
    write_genome(folder, ONE)
    write_lines(folder / "a.bed", reads(numbers, ONE, 1_000_000, 100, 200))
    write_lines(folder / "b.bed", places(numbers, ONE, 1_000_000, 1, 1))


def variants_and_genes(folder):
    """1,000,000 variants of one base, and genes."""
    numbers = random.Random(1)
    bases = ((*place, f"rs{at}", f"{numbers.choice('AC')}/{numbers.choice('GT')}")
             for at, place in enumerate(places(numbers, HUMAN, 1_000_000, 1, 1)))
    write_lines(folder / "a.bed", bases)
    write_lines(folder / "b.bed", reads(numbers, HUMAN, 60_000, 500, 100_000))


def bins(folder):
    """A genome in bins of 130 bases with a value, and in bins of 1,000."""
    numbers = random.Random(1)
    write_genome(folder, FLY)
    for file, size in (("a.bed", 130), ("b.bed", 1_000)):
        lines = ((name, start, min(start + size, length), f"{numbers.random():.5f}") for name, length in FLY
                 for start in range(0, length, size))
        write_lines(folder / file, lines)


def karyotype_order(folder):
    """Reads and exons, the chromosomes in the order of a genome browser."""
    numbers = random.Random(1)
    write_genome(folder, KARYOTYPE)
    write_lines(folder / "a.bed", reads(numbers, KARYOTYPE, 1_000_000, 149, 151))
    write_lines(folder / "b.bed", reads(numbers, KARYOTYPE, 200_000, 50, 400))


def sparse(folder):
    """1,000,000 records on each 200th of 200,000 scaffolds."""
    numbers = random.Random(1)
    scaffolds = contigs(200_000, 5_000, 10_000, "scaffold_{}")
    write_genome(folder, scaffolds)
    write_lines(folder / "a.bed", places(numbers, scaffolds[::200], 1_000_000, 10, 50))


def long_positions(folder):
    """Records on chromosomes of three billion bases."""
    numbers = random.Random(1)
    write_genome(folder, LONG)
    for file in ("a.bed", "b.bed"):
        write_lines(folder / file, reads(numbers, LONG, 1_000_000, 100, 5_000))


def one_record(folder):
    """One record at the end of the genome, and 1,000,000."""
    numbers = random.Random(1)
    write_lines(folder / "a.bed", [(HUMAN[-1][0], HUMAN[-1][1] - 100_000, HUMAN[-1][1])])
    write_lines(folder / "b.bed", reads(numbers, HUMAN, 1_000_000, 100, 200))


def header_lines(folder):
    """Records in 10,000 tracks of a genome browser, each with its header lines."""
    numbers = random.Random(1)
    intervals = enumerate(reads(numbers, HUMAN, 1_000_000, 100, 900))
    head = 'browser position chr1:1-1000\ntrack name="sample" description="peaks of a sample"\n'
    write_lines(folder / "a.bed",
                ((head + name if at % 100 == 0 else name, *columns) for at, (name, *columns) in intervals))


def empty_second(folder):
    """Reads, and a second input without a record."""
    numbers = random.Random(1)
    write_lines(folder / "a.bed", reads(numbers, HUMAN, 1_000_000, 100, 200))
    write_lines(folder / "b.bed", [])


def touching_sites(folder):
    """Sites of two bases, most of which touch the next, with a number each."""
    numbers = random.Random(1)
    write_genome(folder, FLY)
    starts = ((name, start) for name, length in FLY for start in range(10_000, length // 40, 2)
              if numbers.random() < 0.2 or start // 100 % 3)
    write_lines(folder / "a.bed", ((name, start, start + 2, numbers.randint(0, 100)) for name, start in starts))
    write_lines(folder / "b.bed", reads(numbers, FLY, 100_000, 100, 2_000))


def spaces(folder):
    """Records whose names are words with spaces."""
    numbers = random.Random(1)
    words = ["coding region", "exon 7 of 9", "CpG: 30", "long repeat, old"]
    for file in ("a.bed", "b.bed"):
        intervals = places(numbers, HUMAN, 500_000, 100, 2_000)
        write_lines(folder / file,
                    ((*interval, f"{numbers.choice(words)} {at}", 0, numbers.choice("+-"))
                     for at, interval in enumerate(intervals)))


def short_names(folder):
    """Reads and genes on chromosomes without a prefix, as Ensembl names them."""
    numbers = random.Random(1)
    ensembl = sorted((name.removeprefix("chr"), length) for name, length in HUMAN)
    write_genome(folder, ensembl)
    write_lines(folder / "a.bed", reads(numbers, ensembl, 1_000_000, 35, 75))
    write_lines(folder / "b.bed", reads(numbers, ensembl, 60_000, 500, 100_000))


def nested_domains(folder):
    """Domains in domains, twelve deep, and peaks."""
    numbers = random.Random(1)
    nests = list(places(numbers, HUMAN, 20_000, 100_000, 140_000))
    domains = sorted((name, start + 2_000 * depth, stop - 2_000 * depth) for name, start, stop in nests
                     for depth in range(12))
    write_lines(folder / "a.bed", domains)
    write_lines(folder / "b.bed", places(numbers, HUMAN, 200_000, 200, 2_000))


def itself(folder):
    """The same records in both inputs."""
    for file in ("a.bed", "b.bed"):
        write_lines(folder / file, reads(random.Random(1), HUMAN, 1_000_000, 200, 900))


def elsewhere(folder):
    """Records on chromosomes of which the other input has none."""
    numbers = random.Random(1)
    write_genome(folder, HUMAN)
    write_lines(folder / "a.bed", reads(numbers, HUMAN[::2], 1_000_000, 100, 200))
    write_lines(folder / "b.bed", reads(numbers, HUMAN[1::2], 1_000_000, 100, 200))


def segments(folder):
    """Segments of up to ten million bases from many patients, and genes."""
    numbers = random.Random(1)
    write_lines(folder / "a.bed", reads(numbers, HUMAN, 100_000, 10_000, 10_000_000))
    write_lines(folder / "b.bed", reads(numbers, HUMAN, 20_000, 1_000, 100_000))


def inserted_sequences(folder):
    """Structural variants with the sequences that they insert, of up to 50,000 bytes."""
    numbers = random.Random(1)
    bases = "".join(numbers.choice("ACGT") for _ in range(60_000))
    variants = reads(numbers, HUMAN, 10_000, 1, 10_000)
    write_lines(folder / "a.bed", ((*variant, bases[: numbers.randint(1, 50_000)]) for variant in variants))
    write_lines(folder / "b.bed", reads(numbers, HUMAN, 100_000, 100, 50_000))


def stranded_reads(folder):
    """Reads of genes that overlap on both strands: no two begin at one base."""
    numbers = random.Random(1)
    intervals = ((name, start, stop) for name, start, stop in places(numbers, FLY, 1_000_000, 75, 75))
    apart = (next(group) for _, group in itertools.groupby(intervals, lambda one: one[:2]))
    write_lines(folder / "a.bed", with_strands(numbers, apart))


def dense_masks(folder):
    """1,000,000 records on a sequence of 50 million bases."""
    sequence = [("chr22", 50_000_000)]
    write_sequences(folder, sequence, 50)
    write_lines(folder / "b.bed", places(random.Random(1), sequence, 1_000_000, 5, 60))


def alignments_to_draft(folder):
    """Reads of 100 bases on 300,000 contigs, each of which has a header line."""
    numbers = random.Random(1)
    draft = contigs(300_000, 1_000, 20_000)
    starts = few_on_each(numbers, draft, 3, 100, 100)
    write_sam(folder, draft,
              ((f"A:{at}", numbers.choice((0, 16)), name, start, [(100, "M")])
               for at, (name, start, _) in enumerate(starts)))
