"""What differs from bedtools 2.30.0: each row of differences.tsv and each option is tried with both programs."""
