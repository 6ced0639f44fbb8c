"""Sizes, routes and buckets of the heap, as docs/heap-rules.md and docs/formats.md tell them."""
PAGE = 4096
GRANULE = 16
SEGMENT_PAGES = 256
HEADER_PAGES = 2
SERVING_PAGES = SEGMENT_PAGES - HEADER_PAGES
SEGMENT = PAGE * SEGMENT_PAGES

LFH_MOST = 16_368
VS_MOST = 131_072
BACK_MOST = 520_192
VS_START = 48
LFH_START = 64
DUE_LIVE = 17
DUE_SERVED = 2_040
BUCKETS = 128

LAYERS = ('lfh', 'vs', 'back', 'large')
LAYER_NAMES = {
    'lfh': 'low-fragmentation front end',
    'vs': 'variable-size layer',
    'back': 'back end',
    'large': 'large area',
}


def up(a, b):
    """The quotient, rounded up."""
    return -(-a // b)


def bucket_of(size):
    """The bucket of a size, or None above 16,368 bytes."""
    m = max(1, size)
    if m <= 1_024:
        return up(m, 16)
    if m <= 2_048:
        return 64 + up(m - 1_024, 64)
    if m <= 4_096:
        return 80 + up(m - 2_048, 128)
    if m <= 8_192:
        return 96 + up(m - 4_096, 256)
    if m <= LFH_MOST:
        return 112 + up(m - 8_192, 512)
    return None


def block_size(bucket):
    """The bytes of a block of the bucket."""
    if bucket <= 64:
        return 16 * bucket
    if bucket <= 80:
        return 1_024 + 64 * (bucket - 64)
    if bucket <= 96:
        return 2_048 + 128 * (bucket - 80)
    if bucket <= 112:
        return 4_096 + 256 * (bucket - 96)
    return 8_192 + 512 * (bucket - 112)


def subsegment_pages(bucket):
    """The pages of a subsegment of the front end."""
    size = block_size(bucket)
    return 1 if size <= 256 else 4 if size <= 1_024 else 16 if size <= 4_096 else 64


def block_count(bucket):
    """The blocks of a subsegment of the front end."""
    return (PAGE * subsegment_pages(bucket) - LFH_START) // block_size(bucket)


def granules_of(size):
    """The granules that a block of the variable-size layer needs, its header included."""
    return 1 + up(max(1, size), GRANULE)


def vs_pages(granules):
    """The pages of a new subsegment of the variable-size layer for a place of so many granules."""
    return max(16, up(VS_START + GRANULE * granules, PAGE))


def pages_of(size):
    """The pages of a block of the back end or of the large area."""
    return up(size, PAGE)


def route(size):
    """The layer of a size whose bucket, where it has one, is not active."""
    return 'vs' if size <= VS_MOST else 'back' if size <= BACK_MOST else 'large'


def words_of(size):
    """The words of a block."""
    return up(size, 8)
