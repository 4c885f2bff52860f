"""The program in bin/ where no proof speaks of it: real files, streams, memory; and any input."""
