"""Tables as text: their bytes decoded, their separator found, their records with the lines on which they begin."""

import codecs
import csv
import io
from collections.abc import Iterator, Sequence

SEPARATORS = {",": "commas", ";": "semicolons", "\t": "tabs"}
UTF_16 = "UTF-16"
UTF_8 = "UTF-8"
WINDOWS = "Windows-1252"
HEADER_LINES = 10  # among so many lines the header is looked for

csv.field_size_limit(2**31 - 1)


def decoded(data: bytes) -> tuple[str, str]:
    """The text without its mark of byte order, and its encoding: UTF-16, UTF-8, or the code page of Windows."""
    if data.startswith((codecs.BOM_UTF16_LE, codecs.BOM_UTF16_BE)):
        return data.decode("utf-16", "replace"), UTF_16
    if b"\0" in data[:4]:
        return data.decode("utf-16-le" if data[1:2] == b"\0" else "utf-16-be", "replace"), UTF_16
    try:
        return data.decode("utf-8").removeprefix("\ufeff"), UTF_8
    except UnicodeDecodeError:
        return data.decode("cp1252", "replace"), WINDOWS


def records(text: str, separator: str = ",") -> Iterator[tuple[int, list[str]]]:
    """The records that are not blank, each with the line on which it begins."""
    reader = csv.reader(io.StringIO(text, newline=""), delimiter=separator)
    before = 0
    for record in reader:
        if record:
            yield before + 1, record
        before = reader.line_num


def separator_of(text: str, words: Sequence[str]) -> str:
    """The separator by which the first lines show most of these words as fields; a comma where none shows any."""
    head = "\n".join(text.splitlines()[:HEADER_LINES])

    def shown(separator: str) -> int:
        return max((len(header_words(it) & set(words)) for _, it in records(head, separator)), default=0)

    return max(SEPARATORS, key=shown)


def header_words(record: Sequence[str]) -> set[str]:
    """The fields of a header, each tidied."""
    return {tidy(field) for field in record}


def tidy(field: str) -> str:
    """A header's field in lower case, with one blank between words."""
    return " ".join(field.replace("_", " ").lower().split())
