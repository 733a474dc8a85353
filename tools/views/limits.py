"""The limits of a pipeline (docs/reference/pipelines.md)."""
# The bytes of a cache line, of which a region is a multiple, and of the smallest and the largest region.
LINE, MIN_REGION, MAX_REGION = 64, 4_096, 1 << 30
# The bytes of a buffer before its data.
HEADROOM = 128
# The most buffers of a pool, and of all pools together; buffers of its cache; places of a ring or a transmit list; bytes of a buffer.
MAX_BUFFERS, MAX_CACHE, MAX_RING, MAX_ROOM = 65_535, 512, 65_536, 4_096
# The most segments of a record; rules and groups of a table; the greatest number of a pool; and the greatest value of a fact of a packet.
MAX_SEGMENTS, MAX_RULES, MAX_GROUPS, MAX_POOL, MAX_FACT = 64, 65_536, 256, 7, 65_535
