"""Lists the records of a file: where they stand in it, or, where a change is live, a copy of them: list.py TYPE FILE"""
import sys

import cvec


def records_of(path, kind):
    with cvec.Map(path, kind) as seen:
        if seen.is_plain():
            return list(seen.records()), "map"
    with cvec.File.open(path, kind) as file:
        records = file.read()
    return records.tolist() if hasattr(records, "tolist") else records, "copy"


def text_of(record):
    """As the program lists it, but floats as Python does."""
    if isinstance(record, bytes):
        return record.hex()
    return ":".join(str(int(it)) for it in record) if isinstance(record, tuple) else str(record)


def main(kind, path):
    records, way = records_of(path, kind)
    for record in records:
        print(text_of(record))
    print(f"by {way}", file=sys.stderr)


main(*sys.argv[1:])
