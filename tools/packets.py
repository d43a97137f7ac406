"""The packets of a stream, for the scripts beside this file."""


def packets_of(stream: bytes) -> list[bytes]:
    """Returns the packets of a stream, in order. The length field of a primary header has the octets after it, less one."""
    packets, at = [], 0
    while at < len(stream):
        end = at + 7 + int.from_bytes(stream[at + 4 : at + 6], "big")
        packets.append(stream[at:end])
        at = end
    return packets
