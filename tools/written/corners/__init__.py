"""Many corners and many blocks: the texts of a corner, one run and its record, and the summary of all."""
