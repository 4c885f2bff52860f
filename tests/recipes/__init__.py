"""The scripts of recipes/ beside bedtools 2.30.0, and those of shards/ beside the whole run."""
