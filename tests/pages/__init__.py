"""What the pages say: examples, links, words, and what is written by tools."""
