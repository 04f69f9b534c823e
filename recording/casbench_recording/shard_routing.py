"""Computes the shard of a document as OpenSearch does, from its id or its routing."""

PRIMARY = "_primary"
"""The preference of a get that the primary answers, which OpenSearch supports since 2.4."""

MASK = 0xFFFF_FFFF


def shard_of(routing: str, shards: int, routing_shards: int) -> int:
    """Returns the shard of a routing. The number of routing shards is a multiple of that of shards."""
    return hash_of(routing) % routing_shards // (routing_shards // shards)


def hash_of(routing: str) -> int:
    """Returns the signed 32-bit Murmur3 hash of the text in UTF-16."""
    data = routing.encode("utf-16-le", "surrogatepass")
    whole = len(data) & ~3
    hashed = 0
    for at in range(0, whole, 4):
        hashed ^= mixed(int.from_bytes(data[at : at + 4], "little"))
        hashed = (rotated(hashed, 13) * 5 + 0xE654_6B64) & MASK
    hashed ^= mixed(int.from_bytes(data[whole:], "little")) ^ len(data)
    for shift, factor in ((16, 0x85EB_CA6B), (13, 0xC2B2_AE35)):
        hashed = ((hashed ^ hashed >> shift) * factor) & MASK
    hashed ^= hashed >> 16
    return hashed - 2**32 if hashed >> 31 else hashed


def mixed(block: int) -> int:
    """Mixes a block of four bytes for the hash."""
    return rotated(block * 0xCC9E_2D51 & MASK, 15) * 0x1B87_3593 & MASK


def rotated(number: int, count: int) -> int:
    """Rotates 32 bits to the left."""
    return (number << count | number >> (32 - count)) & MASK
