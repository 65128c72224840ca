"""ISD-ASes as people write them: 1-ff00:0:110, 2-64496, or the 16 hex digits of the format."""
import re

BGP_LIMIT = 1 << 32
HEX = re.compile(r"[0-9a-fA-F]{16}")
PAIR = re.compile(r"([0-9]{1,5})-(?:([0-9]{1,10})|([0-9a-fA-F]{1,4}):([0-9a-fA-F]{1,4}):([0-9a-fA-F]{1,4}))")


def parse(word):
    """The 64-bit number; ValueError says what is wrong."""
    if HEX.fullmatch(word):
        return int(word, 16)
    found = PAIR.fullmatch(word)
    if not found:
        raise ValueError(f"{word!r} is no ISD-AS such as 1-ff00:0:110 or 0001ff0000000110")
    isd, bgp, *groups = found.groups()
    if int(isd) > 65535:
        raise ValueError(f"the ISD of {word} is above 65535")
    if bgp is not None:
        if int(bgp) >= BGP_LIMIT:
            raise ValueError(f"the AS of {word} is above 4294967295: write it as three groups of hex digits")
        return int(isd) << 48 | int(bgp)
    high, middle, low = (int(group, 16) for group in groups)
    return int(isd) << 48 | high << 32 | middle << 16 | low


def written(number):
    """An AS below 2 to the 32 is a BGP number in base ten, any other three groups in hex."""
    isd, asn = number >> 48, number & (1 << 48) - 1
    if asn < BGP_LIMIT:
        return f"{isd}-{asn}"
    return f"{isd}-{asn >> 32:x}:{asn >> 16 & 0xFFFF:x}:{asn & 0xFFFF:x}"
