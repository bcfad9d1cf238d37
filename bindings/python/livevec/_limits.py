"""The limits of vectors, boards, queries and summaries, and of the numbers that C takes."""

MOST_BUCKETS = 17
"""So many buckets have room for 1,048,568 elements; k have room for 8 * (2**k - 1)."""
MOST_EDITS = 16_777_215
MOST_BOARD_BUCKETS = 9
"""So many buckets of a board have room for 4,088 elements."""
MOST_SEATS = 8
SUMMARY_BYTES = 184
"""So many bytes has a summary that travels."""
MOST_QUERIES = 64
"""So many standing queries has a set at most."""

_LEAST_I64, _MOST_I64, _MOST_U32, _MOST_U64 = -(1 << 63), (1 << 63) - 1, (1 << 32) - 1, (1 << 64) - 1
