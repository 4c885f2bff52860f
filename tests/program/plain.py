"""What each command answers by the rules of COMMANDS.md and ERRORS.md: a second way to it, for small inputs.

It keeps everything and is slow, has nothing of the program's, and is as short as the rules allow.
"""

import re
from dataclasses import dataclass
from fractions import Fraction

from options import FILES, STRAND, commands

LARGEST = 999_999_999_999


class Fault(Exception):
    """A fault: the file, the line and the text."""

    def line(self, command, stream):
        """The line that reports it. One of the files may be standard input."""
        name, at, text = self.args
        return f"bedtools {command}: {'-' if name == stream else name}:{at}: {text}\n".encode()


@dataclass
class Record:
    """A BED record, with its line and the rank of its chromosome, which without a genome file is its name."""

    line: int
    rank: object
    chrom: bytes
    start: int
    stop: int
    rest: list

    def strand(self):
        return self.rest[2] if len(self.rest) > 2 and self.rest[2] in (b"+", b"-") else b"."

    def length(self):
        return self.stop - self.start

    def place(self):
        return self.rank, self.start

    def text(self, start=None, stop=None):
        span = b"%d\t%d" % (self.start if start is None else start, self.stop if stop is None else stop)
        return b"\t".join([self.chrom, span, *self.rest])


def number(text, most=LARGEST):
    """The value of decimal digits, if it isn't above the most."""
    return int(text) if re.fullmatch(rb"[0-9]+", text) and int(text) <= most else None


def lines(text):
    """The lines with their ends."""
    return re.findall(rb"[^\n]*\n|[^\n]+\Z", text)


def body(line):
    """A line without its end."""
    line = line[:-1] if line.endswith(b"\n") else line
    return line[:-1] if line.endswith(b"\r") else line


def genome_of(name, text):
    """The chromosomes with their lengths, in order."""
    genome = {}
    for at, line in enumerate(map(body, lines(text)), 1):
        if line == b"" or line.startswith(b"#"):
            continue
        columns = line.split(b"\t")
        refuse_first([(len(columns) < 2, "too few columns"), (columns[0] == b"", "empty chromosome name")], name, at)
        refuse_first([(not number(columns[1]), "length is not a number"),
                      (columns[0] in genome, "chromosome is repeated")], name, at)
        genome[columns[0]] = number(columns[1])
    return genome


def refuse_first(checks, name, at):
    """Raises the first fault that is there."""
    for is_there, text in checks:
        if is_there:
            raise Fault(name, at, text)


def record_of(name, at, line, genome):
    """The record of a BED line; None for a header or a blank line."""
    if line == b"" or line.startswith(b"#") or re.match(rb"(track|browser)([ \t]|\Z)", line):
        return None
    columns = line.split(b"\t")
    start, stop = (number(column) for column in (columns[1:3] + [b"", b""])[:2])
    refuse_first([(len(columns) < 3, "too few columns"), (columns[0] == b"", "empty chromosome name"),
                  (start is None, "start is not a number"), (stop is None, "end is not a number")], name, at)
    refuse_first([(start >= stop, "start is not below end"),
                  (genome is not None and columns[0] not in genome, "chromosome is not in the genome file")], name, at)
    rank = columns[0] if genome is None else list(genome).index(columns[0])
    return Record(at, rank, columns[0], start, stop, columns[3:])


def records_of(name, text, genome, in_blocks=False):
    """The good records of a BED file up to its first fault, and that fault or None. In blocks only the records of one
    chromosome that stand together are in order."""
    found = []
    for at, line in enumerate(map(body, lines(text)), 1):
        try:
            record = record_of(name, at, line, genome)
            if record is None:
                continue
            is_one_list = found and (not in_blocks or found[-1].chrom == record.chrom)
            is_before = is_one_list and record.place() < found[-1].place()
            refuse_first([(is_before, "record is out of order")], name, at)
        except Fault as fault:
            return found, fault
        found.append(record)
    return found, None


def whole_lines(pieces):
    """Lines from pieces."""
    return b"".join(piece + b"\n" for piece in pieces)


def merge(records, fault, _, options):
    """The runs; up to a fault those that are finished, and before which all are."""
    gap = int(options[options.index("-d") + 1]) if "-d" in options else 0
    only = options[options.index("-S") + 1].encode() if "-S" in options else None
    runs = []
    for record in records:
        strand = record.strand() if "-s" in options else None
        open_run = next((run for run in reversed(runs) if run[3] == strand), None)
        if only not in (None, record.strand()):
            continue
        if open_run and open_run[0] == record.chrom and record.start <= open_run[2] + gap:
            open_run[2] = max(open_run[2], record.stop)
        else:
            runs.append([record.chrom, record.start, record.stop, strand])
    settled = 0
    while fault and settled < len(runs) and (
            runs[settled][0] != records[-1].chrom or runs[settled][2] + gap < records[-1].start):
        settled += 1
    return whole_lines(b"%s\t%d\t%d" % tuple(run[:3]) for run in (runs[:settled] if fault else runs))


def depths(records, length):
    """The stretches of equal depth of a chromosome: start, end, depth."""
    places = sorted({0, length, *(min(place, length) for record in records for place in (record.start, record.stop))})
    found = []
    for start, stop in zip(places, places[1:]):
        depth = sum(record.start <= start < record.stop for record in records)
        if found and found[-1][2] == depth:
            found[-1][1] = stop
        else:
            found.append([start, stop, depth])
    return found


def stretches(records, fault, genome, only, is_settled):
    """The stretches of equal depth with their chromosomes and whether these have records; up to a fault those that the
    last start settles. With a strand only its records are counted."""
    for rank, (chrom, length) in enumerate(genome.items()):
        if fault and (not records or rank > records[-1].rank):
            return
        inside = [record for record in records if record.rank == rank]
        for stretch in depths([record for record in inside if only in (None, record.strand())], length):
            if not fault or rank < records[-1].rank or is_settled(stretch[1], records[-1].start):
                yield chrom, stretch, bool(inside)


def complement(records, fault, genome, options):
    """The gaps; up to a fault those that end at the last start or before it."""
    found = stretches(records, fault, genome, None, lambda stop, last: stop <= last)
    return whole_lines(b"%s\t%d\t%d" % (chrom, *stretch[:2]) for chrom, stretch, has_records in found
                       if stretch[2] == 0 and (has_records or "-L" not in options))


def genomecov(records, fault, genome, options):
    """The stretches of equal depth; up to a fault those that end before the last start."""
    only = options[options.index("-strand") + 1].encode() if "-strand" in options else None
    found = stretches(records, fault, genome, only, lambda stop, last: stop < last)
    return whole_lines(b"%s\t%d\t%d\t%d" % (chrom, *stretch) for chrom, stretch, _ in found
                       if stretch[2] > 0 or "-bga" in options)


def hits_of(record, others, options):
    """The others that hit a record, each with the bases that they share."""
    fraction = round(float(options[options.index("-f") + 1]) * 10**9) if "-f" in options else 0
    for other in others:
        shared = min(record.stop, other.stop) - max(record.start, other.start)
        longest = max(record.length(), other.length()) if "-r" in options else record.length()
        is_enough = shared * 10**9 >= fraction * longest
        is_of_strand = "-s" not in options or record.strand() == other.strand()
        if record.chrom == other.chrom and shared > 0 and is_enough and is_of_strand:
            yield other, shared


def intersect_lines(record, hits, options):
    """The lines of a record with its hits."""
    if "-u" in options or "-v" in options:
        return [record.text()] if bool(hits) == ("-u" in options) else []
    if "-c" in options:
        return [record.text() + b"\t%d" % len(hits)]
    has_shared = "-wo" in options
    is_whole, has_other = "-wa" in options or has_shared, "-wb" in options or has_shared
    found = []
    for other, shared in hits:
        cut = record.text(max(record.start, other.start), min(record.stop, other.stop))
        pieces = [(True, record.text() if is_whole else cut), (has_other, other.text()), (has_shared, b"%d" % shared)]
        found.append(b"\t".join(piece for is_there, piece in pieces if is_there))
    return found


def subtract_lines(record, hits, options):
    """The lines of what is left of a record."""
    if "-A" in options:
        return [] if hits else [record.text()]
    found, start = [], record.start
    for other, _ in sorted(hits, key=lambda hit: hit[0].start):
        if other.start > start:
            found.append(record.text(start, other.start))
        start = max(start, other.stop)
    return found + ([record.text(start, record.stop)] if start < record.stop else [])


def within_limit(records, second, options):
    """The second input up to the first record with which more have to be held than -held allows, and the fault there.
    Held are those that lie on the chromosome of the first record that they leave undecided and end above its start."""
    others, fault = second
    most = int(options[options.index("-held") + 1]) if "-held" in options else None
    for count in range(1, len(others) + 1 if most is not None else 1):
        seen = others[:count]
        undecided = next((record for record in records if seen[-1].place() < (record.rank, record.stop)), None)
        held = [other for other in seen
                if undecided and other.chrom == undecided.chrom and other.stop > undecided.start]
        if len(held) > most:
            return seen, Fault("b.bed", seen[-1].line, "too many open records")
    return others, fault


def compare(first, second, lines_of, options):
    """The lines of all records of the first input that the second decides, and the fault that comes first."""
    records, fault_of_first = first
    others, fault_of_second = within_limit(records, second, options)
    output = b""
    for record in records:
        if fault_of_second and (not others or others[-1].place() < (record.rank, record.stop)):
            return output, fault_of_second
        output += whole_lines(lines_of(record, list(hits_of(record, others, options)), options))
    return output, fault_of_first or fault_of_second


def cigar_of(text):
    """The operations of a CIGAR; None where it is malformed."""
    if text == b"*":
        return []
    found = [(number(count), kind) for count, kind in re.findall(rb"([0-9]+)([MIDNSHPX=])", text)]
    is_good = re.fullmatch(rb"([0-9]+[MIDNSHPX=])+", text) and all(count is not None for count, _ in found)
    return found if is_good else None


def alignment_of(at, line):
    """The columns of an alignment up to its CIGAR, numbers as numbers; None for a header or a blank line."""
    if line == b"" or line.startswith(b"@"):
        return None
    columns = line.split(b"\t")
    refuse_first([(len(columns) < 11, "too few columns")], "a.sam", at)
    name, flag, chrom, position, quality, cigar = columns[:6]
    flag, position, quality = number(flag, 65_535), number(position, 2_147_483_647), number(quality, 255)
    refuse_first([(flag is None, "flag is not a number"), (chrom == b"", "empty chromosome name"),
                  (position is None, "position is not a number"), (quality is None, "mapping quality is not a number"),
                  (cigar_of(cigar) is None, "CIGAR is malformed")], "a.sam", at)
    return name, flag, chrom, position, quality, cigar


def blocks_of(start, operations, is_split):
    """The spans of an alignment on the reference: one, or where it is split one for each piece between N operations."""
    blocks = [[start, start]]
    for count, kind in operations:
        place = blocks[-1][1] + (count if kind in b"MDN=X" else 0)
        if kind == b"N" and is_split:
            blocks.append([place, place])
        blocks[-1][1] = place
    return blocks


def alignment_lines(at, line, options):
    """The BED lines of a line of SAM text."""
    alignment = alignment_of(at, line)
    if alignment is None:
        return []
    name, flag, chrom, position, quality, cigar = alignment
    blocks = blocks_of(position - 1, cigar_of(cigar), "-split" in options)
    if flag & 4 or chrom == b"*" or position == 0 or blocks[-1][1] == position - 1:
        return []
    refuse_first([(blocks[-1][1] > LARGEST, "end is too large")], "a.sam", at)
    name += (b"/1" if flag & 64 else b"") + (b"/2" if flag & 128 else b"")
    further = [name, b"%d" % quality, b"-" if flag & 16 else b"+", *([cigar] if "-cigar" in options else [])]
    return [b"\t".join([chrom, b"%d\t%d" % (start, stop), *further]) for start, stop in blocks if start < stop]


def bamtobed(text, options):
    """The BED lines of SAM text, and its first fault."""
    output = b""
    for at, line in enumerate(map(body, lines(text)), 1):
        try:
            output += whole_lines(alignment_lines(at, line, options))
        except Fault as fault:
            return output, fault
    return output, None


def sequences_of(text, options):
    """The sequences: the name and its lines, each with the positions of its first base and behind its last."""
    found, place = [[None, []]], 0
    for at, line in enumerate(lines(text), 1):
        if line.startswith(b">"):
            name = body(line)[1:]
            found.append([name if "-fullHeader" in options else re.split(rb"[ \t]", name)[0], [(line, 0, 0)]])
            place = 0
            continue
        refuse_first([(body(line) != b"" and len(found) == 1, "text before the first header")], "a.fa", at)
        found[-1][1].append((line, place, place + len(body(line))))
        place += len(body(line))
    return found


def masked(line, start, records, options):
    """A line with its masked bases."""
    bases = bytearray(line)
    length = len(body(line))
    for record in records:
        first, last = max(record.start - start, 0), min(record.stop - start, length)
        if first < last:
            of_mask = b"x" if "-mc" in options else b"N"
            bases[first:last] = bases[first:last].lower() if "-soft" in options else of_mask * (last - first)
    return bytes(bases)


def maskfasta(text, records, options):
    """The masked text, and the first record whose block has no sequence, or None."""
    found = sequences_of(text, options)
    of_sequence, at, lost = {}, 0, None
    for record, before in zip(records, [None, *records]):
        if before is None or record.chrom != before.chrom:
            at = next((later for later in range(at + 1, len(found)) if found[later][0] == record.chrom), None)
        if at is None:
            lost = record
            break
        of_sequence.setdefault(at, []).append(record)
    return b"".join(masked(line, start, of_sequence.get(at, []), options) if stop > start else line
                    for at, (_, its_lines) in enumerate(found) for line, start, stop in its_lines), lost


def answer_of_maskfasta(files, options):
    """The output, whether it is all that may be written, and the fault; no output where the pages leave it open."""
    records, fault = records_of("b.bed", files["b.bed"], None, in_blocks=True)
    try:
        output, lost = maskfasta(files["a.fa"], records, options)
    except Fault as early:
        return (None, False, None) if fault else (b"".join(lines(files["a.fa"])[: early.args[1] - 1]), True, early)
    if lost:
        return output, True, Fault("b.bed", lost.line, "no such sequence from here on")
    return output, fault is None, fault


def answer_of(command, files, options):
    """The output of a command, whether it is all that may be written, and the fault or None."""
    if command == "maskfasta":
        return answer_of_maskfasta(files, options)
    if command == "bamtobed":
        output, fault = bamtobed(files["a.sam"], options)
        return output, True, fault
    try:
        genome = genome_of("g.txt", files["g.txt"]) if "g.txt" in files else None
    except Fault as fault:
        return b"", True, fault
    first = records_of("a.bed", files["a.bed"], genome)
    if command in ("intersect", "subtract"):
        lines_of = {"intersect": intersect_lines, "subtract": subtract_lines}[command]
        output, fault = compare(first, records_of("b.bed", files["b.bed"], genome), lines_of, options)
        return output, True, fault
    output = {"merge": merge, "complement": complement, "genomecov": genomecov}[command](*first, genome, options)
    return output, True, first[1]


FILE, NUMBER, SIGN, FRACTION, CHARACTER = r".+", r"[0-9]+", r"[+-]", r"[0-9]+|[0-9]*\.[0-9]{1,9}|[0-9]+\.", r"[!-~]"
# The form of a value by the name that the pages give it; None where no value follows.
FORMS = {"": None, **dict.fromkeys(FILES, FILE), "N": NUMBER, STRAND: SIGN, "F": FRACTION, "C": CHARACTER}
COMMANDS = commands()
# The options of each command, with the forms of their values.
OPTIONS = {name: {option.word: FORMS[option.value] for option in command.options} for name, command in COMMANDS.items()}
INPUTS = ("-i", "-g", "-a", "-b", "-fi", "-bed")


def is_bad(form, value):
    """Whether a value isn't of its form, or is too large."""
    largest = {NUMBER: LARGEST, FRACTION: 1}.get(form)
    return not re.fullmatch(form, value, re.DOTALL) or largest is not None and Fraction(value) > largest


def given(command, words):
    """The options with their values, or the line of the first fault from left to right."""
    found, rest = {}, iter(words)
    for word in rest:
        if word not in OPTIONS[command]:
            return found, f"unknown option: {word}"
        form, value = OPTIONS[command][word], None
        if form is not None:
            value = next(rest, None)
            if value is None:
                return found, f"value missing: {word}"
            if is_bad(form, value):
                return found, f"bad value: {word}"
        found[word] = value
    return found, None


def lacks(command, found):
    """Whether an option isn't given that is required, nor another in its place."""
    needed = [{option.word, *option.one_of()} for option in COMMANDS[command].options
              if option.default == "required" or option.one_of()]
    return any(not one_of & set(found) for one_of in needed)


def excludes(command, found):
    """Whether options are given that exclude one another."""
    output = found.get("-fo")
    is_over_input = output not in (None, "-", "stdout") and output in (found.get("-fi"), found.get("-bed"))
    return is_over_input or any(set(option.excludes) & set(found) for option in COMMANDS[command].options
                                if option.word in found)


def usage_of(words):
    """The line of a command line that can't be used; None of one that can."""
    if not words or words[0] not in OPTIONS:
        return "no or unknown command"
    command = words[0]
    found, fault = given(command, words[1:])
    if fault:
        return fault
    if lacks(command, found):
        return "required option missing"
    if excludes(command, found):
        return "options exclude one another"
    missing = {"-i": "-"}
    inputs = [found.get(option, missing.get(option)) for option in INPUTS if option in OPTIONS[command]]
    return "standard input named twice" if sum(name in ("-", "stdin") for name in inputs) > 1 else None
