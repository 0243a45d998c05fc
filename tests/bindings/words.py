"""Records as the tables have them."""
import struct

# A number with a fraction stands there by its bits.
FLOATS = {"f32": struct.Struct(">f"), "f64": struct.Struct(">d")}


def record_of(kind, word):
    if kind in FLOATS:
        return FLOATS[kind].unpack(bytes.fromhex(word))[0]
    if kind == "pair":
        return tuple(map(int, word.split(":")))
    if kind == "flagged":
        key, flag = word.split(":")
        return int(key), flag == "1"
    return bytes.fromhex(word) if kind.startswith("bytes") else int(word)


def text_of(kind, record):
    if kind in FLOATS:
        return FLOATS[kind].pack(record).hex()
    if kind in ("pair", "flagged"):
        return f"{int(record[0])}:{int(record[1])}"
    return bytes(record).hex() if kind.startswith("bytes") else str(int(record))


def listed(kind, records):
    return " ".join([f"{len(records)}:", *(text_of(kind, it) for it in records)])
