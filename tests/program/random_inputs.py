"""Random inputs of each format: any bytes, bytes of the format's alphabet, and good lines with one byte changed."""

CHROMOSOMES = [(b"chr1", 1000), (b"chr2", 50), (b"chr10", 300)]
LINE_ENDS = [b"\n"] * 6 + [b"\r\n", b"\r\n", b"\r", b"\r\r\n", b"\n\n", b""]
NUMBERS = [b"0", b"1", b"5", b"10", b"20", b"007", b"49", b"50", b"300", b"999", b"1000", b"999999999999",
           b"1000000000000", b"18446744073709551616", b"-1", b"+1", b"1.5", b"1e3", b""]
STRANDS = [b"+", b"-", b".", b"", b"++"]
NAMES = [b"chr1", b"chr2", b"chr10", b"chr", b"chr1 ", b"", b"*", b"\xff\xfe", b"#", b"track", b"browser", b"trackX"]
CIGARS = [b"*", b"4M", b"10M", b"6M14N5M", b"5S5M", b"3N3N", b"5N5M", b"0M", b"5Q", b"M",
          b"999999999999M", b"1M" * 30, b"8M2I4M1D3M"]
SOUP = [b"\t"] * 8 + [b"\n", b"\n", b"\r\n", b"\r", b" ", b">", b"@", b"#", b"/", b"="] + NUMBERS + STRANDS + NAMES
BASES = [b"ACGT", b"acgtn", b"N", b"A" * 70, b"", b">", b" ", b"\t"]
# What stands in the place of a changed byte: digits and what ends or parts something come more often than others.
FREQUENT = [b"\n", b"\r", b"\t", b"", b"\t\t", b">", b"#", b"\n\n", *b"0 1 2 4 9".split()]
CHANGES = [bytes([byte]) for byte in range(256)] + FREQUENT * 20


def bed_columns(numbers):
    """The columns of a BED line, a good one in most cases."""
    if numbers.random() < 0.7:
        return bed_record(numbers, *numbers.choice(CHROMOSOMES))
    columns = [numbers.choice(NAMES[:3] * 4 + NAMES), numbers.choice(NUMBERS), numbers.choice(NUMBERS)]
    return columns + [numbers.choice(NAMES), numbers.choice(NUMBERS), numbers.choice(STRANDS)][: numbers.randrange(4)]


def bed_record(numbers, name, length):
    """The columns of a good BED line, at any start on the chromosome, or a little behind it."""
    start = numbers.randrange(length + 10)
    further = [b"x", b"0", numbers.choice(STRANDS), b"more"][: numbers.randrange(5)]
    return [name, b"%d" % start, b"%d" % (start + numbers.randrange(1, 60)), *further]


def sam_columns(numbers):
    """The columns of a SAM line, a good one in most cases."""
    if numbers.random() < 0.7:
        return sam_record(numbers)
    place = [numbers.choice(NAMES), numbers.choice(NUMBERS), numbers.choice(NUMBERS), numbers.choice(CIGARS)]
    flag = numbers.choice(NUMBERS)
    return [b"r", flag, *place, *[numbers.choice(NAMES) for _ in range(numbers.choice([5, 5, 5, 4, 8]))]]


def sam_record(numbers):
    """The columns of a good SAM line."""
    cigar = numbers.choice([b"*", b"4M", b"6M14N5M", b"8M2I4M1D3M", b"5N5M", b"5S5M", b"3=2X", b"3M0N3M"])
    place = [b"chr1", b"%d" % numbers.randrange(100), b"%d" % numbers.randrange(256), cigar]
    return [b"read", b"%d" % numbers.choice([0, 4, 16, 64, 128, 192, 65535]), *place, b"*", b"0", b"0", b"ACGT", b"*"]


def genome_columns(numbers):
    """The columns of a line of a genome file."""
    return [numbers.choice(NAMES), *[numbers.choice(NUMBERS) for _ in range(numbers.randrange(3))]]


def fasta_columns(numbers):
    """A line of a FASTA file, as its only column."""
    header = [b">", numbers.choice(NAMES), b" ", numbers.choice(NAMES)][: numbers.randrange(1, 5)]
    return [b"".join(header) if numbers.random() < 0.3 else numbers.choice(BASES)]


COLUMNS = {"bed": bed_columns, "named": bed_columns, "sam": sam_columns, "genome": genome_columns,
           "fasta": fasta_columns}


def good_bed(numbers):
    """BED lines in order, with header lines and blank lines."""
    lines = []
    for name, length in CHROMOSOMES:
        records = [bed_record(numbers, name, length) for _ in range(numbers.randrange(6))]
        lines += [b"\t".join(record) for record in sorted(records, key=lambda record: int(record[1]))]
    if numbers.random() < 0.2:
        lines.insert(numbers.randrange(len(lines) + 1), numbers.choice([b"# a", b"track name=x", b"", b"browser\tx"]))
    return lines


def good_named_bed(numbers):
    """The same with the chromosomes in the order of the bytes of their names."""
    return sorted(good_bed(numbers), key=lambda line: line.split(b"\t")[0])


def good_sam(numbers):
    """SAM lines."""
    return [b"@HD\tVN:1.6", *[b"\t".join(sam_record(numbers)) for _ in range(numbers.randrange(8))]]


def good_fasta(numbers):
    """The sequences of the chromosomes, in lines of varying length."""
    lines = []
    for name, length in CHROMOSOMES:
        lines.append(b">" + name + numbers.choice([b"", b" first", b"\tx"]))
        width = numbers.randrange(1, 80)
        left = numbers.randrange(length)
        while left > 0:
            lines.append((b"ACGTacgtN" * 10)[: min(width, left)])
            left -= width
    return lines


def good_genome(_):
    """The lines of the genome file."""
    return [b"%s\t%d" % chromosome for chromosome in CHROMOSOMES]


GOOD = {"bed": good_bed, "named": good_named_bed, "sam": good_sam, "genome": good_genome, "fasta": good_fasta}


def good(numbers, form):
    """A good text of this format, whose line ends are those of one system; the last may be absent."""
    ending = numbers.choice([b"\n", b"\n", b"\r\n"])
    text = ending.join(GOOD[form](numbers))
    return text + ending if text and numbers.random() < 0.8 else text


def any_bytes(numbers, form):
    """Up to 200 bytes of any value, in half of the cases behind good lines."""
    ahead = good(numbers, form) if numbers.random() < 0.5 else b""
    return ahead + numbers.getrandbits(8 * 200).to_bytes(200, "little")[: numbers.randrange(200)]


def of_alphabet(numbers, form):
    """Lines whose columns are what is in such columns, good or not; or such pieces in any order. In half of the cases
    they come after good lines."""
    ahead = good(numbers, form) if numbers.random() < 0.5 else b""
    if numbers.random() < 0.3:
        return ahead + b"".join(numbers.choices(SOUP, k=numbers.randrange(60)))
    count = numbers.randrange(8)
    return ahead + b"".join(b"\t".join(COLUMNS[form](numbers)) + numbers.choice(LINE_ENDS) for _ in range(count))


def one_changed(numbers, form):
    """A good text of which one byte is another, is missing, or is several."""
    text = good(numbers, form)
    at = numbers.randrange(len(text) + 1)
    return text[:at] + numbers.choice(CHANGES) + text[at + numbers.randrange(2) :]


KINDS = [any_bytes, of_alphabet, one_changed]


def line_ahead(form, length):
    """A line, or several, of so many bytes in all (one at least) that change nothing but the numbers of later lines."""
    if form == "fasta":
        return b"\n" * length
    return (b"@" if form == "sam" else b"#")[: length - 1] + b"x" * (length - 2) + b"\n"


# Lines of each format that are read in one way or another: with numbers of each length, with a strand and without,
# ended by CR LF, by CR at the end of the text or by nothing there, blank, a header line, and at fault.
BORDER_LINES = {
    "bed": [
        b"chr1\t5\t9\n", b"chr1\t5\t9\tx\t0\t+\n", b"chr1\t123456\t1234567\n", b"chr1\t1234567\t12345678\tx\t0\t-\n",
        b"chr1\t12345678\t123456789\n", b"chr1\t123456789\t1234567890\tname\t5\t.\tmore\n",
        b"chr1\t000000000005\t999999999998\n",
        b"chr1\t0000000000005\t0000000000009\n", b"chr1\t5\t9\r\n", b"chr1\t1234567\t12345678\tx\t0\t-\r\n",
        b"chr1\t5\t9", b"chr1\t5\t9\r",
        b"# a header\n", b"track name=x\r\n", b"browser\n", b"\n", b"\r\n", b"chr1\t1234:67\t9\n",
        b"chr1\t5\t1234567/\n", b"chr1\t5\n",
        b"a chromosome's name of more than thirty-two bytes\t1234567\t12345678\tx\t0\t+\n",
    ],
    "sam": [
        b"r1\t0\tchr1\t3\t60\t4M\t*\t0\t0\tACGT\t*\n", b"r1\t16\tchr1\t12345678\t0\t2M3N2M\t*\t0\t0\tACGT\t*\tNM:i:0\n",
        b"r1\t99\tchr1\t123456789\t7\t4M\t=\t5\t0\tACGT\tFFFF\r\n", b"r1\t4\t*\t0\t0\t*\t*\t0\t0\tACGT\t*\n",
        b"@CO\tx\n", b"\n", b"\r\n", b"r1\t0\tchr1\t3\t60\t4M\t*\t0\t0\tACGT\t*",
        b"r1\t0\tchr1\t3\t60\t4M\t*\t0\t0\tACGT\t*\r",
        b"r1\t0\tchr1\t3\t60\t4M\t*\t0\n",
    ],
    "fasta": [
        b"ACGTACGTAC\n", b"ACGTACGTAC\r\n", b"ACGT" * 15 + b"\n", b"ACGT" * 20 + b"\n", b"ACGT" * 15 + b"\r\n", b"\n",
        b"\r\n", b">chr2 more\n",
        b">chr2\r\n", b"ACGTACGTAC", b"ACGTACGTAC\r", b">chr2",
    ],
}
BORDER_ENDS = {
    "bed": (b"chr1\t0\t3\n", b"chr1\t999999999998\t999999999999\n"),
    "sam": (b"r0\t0\tchr1\t1\t60\t4M\t*\t0\t0\tACGT\t*\n", b"r2\t0\tchr1\t9\t60\t4M\t*\t0\t0\tACGT\t*\n"),
    "fasta": (b">chr1\nACGT\n", b"ACGTA\n"),
}


def border_texts(form):
    """A text for each of these lines: it stands behind a plain one, and where it is ended before another one."""
    form = "bed" if form == "named" else form
    first, last = BORDER_ENDS[form]
    return [first + line + (last if line.endswith(b"\n") else b"") for line in BORDER_LINES[form]]


# The first nine are values of one option or another.
WORDS = [
    "-", "stdin", "stdout", "+", "0", "1", "1.", ".5", "0.5", "1.5", "0.5000000000", ".", "007", "999999999999",
    "1000000000000", "", "x", "xx", "\u00e9", "\x7f", "~", "none", "a.bed", "b.bed", "g.txt", "a.sam", "a.fa",
    "masked.fa", "--help", "-h", "n" * 300,
]
USUAL = {
    "merge": "-g g.txt", "complement": "-g g.txt -i a.bed", "genomecov": "-g g.txt -bg", "bamtobed": "-i a.sam",
    "intersect": "-a a.bed -b b.bed -g g.txt", "subtract": "-a a.bed -b b.bed -g g.txt",
    "maskfasta": "-fi a.fa -bed b.bed",
}


def random_words(numbers, options):
    """A command line: mostly a usual one with further options and values, good or not, and now and then a word less."""
    command = numbers.choice([*USUAL, *USUAL, numbers.choice(WORDS)])
    words = [command, *(USUAL.get(command, "").split() if numbers.random() < 0.8 else [])]
    for _ in range(numbers.randrange(5)):
        is_known = command in options and numbers.random() < 0.8
        known = list(options[command]) if is_known else [*WORDS, *options["intersect"], *options["maskfasta"]]
        word = numbers.choice(known)
        takes_value = options.get(command, {}).get(word) is not None
        has_value = numbers.random() < (0.95 if takes_value else 0.05)
        words += [word, *([numbers.choice(WORDS[: numbers.choice([9, len(WORDS)])])] if has_value else [])]
    if numbers.random() < 0.1:
        del words[numbers.randrange(len(words))]
    return words
