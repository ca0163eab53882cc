"""The steps of a plan of version 3 in numbers: registers, bits and frames by name become addresses, bytes and buffers."""

REGISTERS = {
    "MOD": 0, "CMR": 1, "SR": 2, "IR": 3, "IER": 4, "BTR0": 6, "BTR1": 7, "OCR": 8, "ALC": 11, "ECC": 12, "EWLR": 13,
    "RXERR": 14, "TXERR": 15, "RMC": 29, "RBSA": 30, "CDR": 31,
    **{f"ACR{k}": 16 + k for k in range(4)}, **{f"AMR{k}": 20 + k for k in range(4)},
    **{f"TX{k}": 16 + k for k in range(13)}, **{f"RX{k}": 16 + k for k in range(13)},
}
BITS = {
    0: "RM LOM STM AFM", 1: "TR AT RRB CDO SRR", 4: "RIE TIE EIE DOIE WUIE EPIE ALIE BEIE",
    8: "OCMODE0 OCMODE1 OCPOL0 OCTN0 OCTP0 OCPOL1 OCTN1 OCTP1", 31: "CD.0 CD.1 CD.2 CLOCKOFF - RXINTEN CBP CANMODE",
}


def address(word):
    """The address that a word names."""
    known = REGISTERS.get(word.upper())
    return known if known is not None else int(word, 16 if word[:2] in ("0x", "0X") else 10)


def value(at, word):
    """The byte that a word names at this address: bits by name, or two hexadecimal digits."""
    names = BITS.get(at, "").split(" ")
    parts = word.upper().split("|")
    if names != [""] and all(part in names for part in parts):
        return sum(1 << names.index(part) for part in parts)
    return int(word, 16)


def buffer(word):
    """The transmit buffer of a frame in the notation of can-utils, or of hexadecimal digits."""
    if "#" not in word:
        return bytes.fromhex(word)
    name, data = word.split("#")
    remote = data[:1] in ("R", "r")
    length = int(data[1:] or "0", 16) if remote else len(data) // 2
    if len(name) == 8:
        head = bytes([0x80 | remote << 6 | length]) + (int(name, 16) << 3).to_bytes(4, "big")
    else:
        head = bytes([remote << 6 | length]) + (int(name, 16) << 5).to_bytes(2, "big")
    return head if remote else head + bytes.fromhex(data)


def in_numbers(step):
    """The words of a step, with names as the numbers for which they stand."""
    words = step.split(" ")
    if words[0] == "read":
        return ["read", str(address(words[1]))]
    if words[0] == "write":
        at = address(words[1])
        return ["write", str(at), f"{value(at, words[2]):02x}"]
    if words[0] == "load":
        return ["load", buffer(words[1]).hex()]
    if words[0] == "command":
        return ["command", f"{value(1, words[1]):02x}"]
    return words
