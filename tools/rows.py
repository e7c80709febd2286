"""Messages as rows of text and of CSV. A row is the list of the texts of its fields, each `TAG=VALUE`, as bytes."""

import csv
import io

import fix42

COMMENT = b"#"
BEGIN_STRING = b"8=FIX.4.2"
# what `make` computes itself
COMPUTED = (8, 9, 10)
# the column of what no column of a tag can hold
OTHER = "?"


class BadRow(Exception):
    """A row that cannot be read, by the number of its line."""

    def __init__(self, line, why):
        super().__init__(why)
        self.line = line
        self.why = why


def text_rows(data):
    """The number of the line and the body of each row of `|`-text."""
    for line, text in enumerate(without_mark(data).split(b"\n"), start=1):
        text = text.removesuffix(b"\r")
        if text.strip() and not text.startswith(COMMENT):
            yield line, body_of_texts(body_texts(line, text.removesuffix(b"|").split(b"|")))


def without_mark(data):
    """Data without the mark that some programs write at the front of UTF-8."""
    return data.removeprefix(b"\xef\xbb\xbf")


def body_texts(line, texts):
    """The fields of a body. Of a whole message 8, 9 and 10 are dropped."""
    if not texts[0].startswith(b"8="):
        return texts
    if texts[0] != BEGIN_STRING:
        raise BadRow(line, f"it begins with {fix42.escaped(texts[0][:40])}, and not with 8=FIX.4.2")
    texts = texts[2:] if len(texts) > 1 and texts[1].startswith(b"9=") else texts[1:]
    return texts[:-1] if texts and texts[-1].startswith(b"10=") else texts


def body_of_texts(texts):
    return b"".join(fix42.unescaped(text) + fix42.SOH for text in texts)


def csv_rows(data):
    """The number of the line and the body of each row of CSV. 35 comes first, the other fields in the order of the columns."""
    # Each byte is one character, so that cells may have any bytes.
    reader = csv.reader(io.StringIO(without_mark(data).decode("latin-1"), newline=""), strict=True)
    tags = None
    try:
        for cells in reader:
            if not any(cell.strip() for cell in cells) or cells[0].startswith("#"):
                continue
            if tags is None:
                tags = [tag_of_heading(reader.line_num, cell.strip()) for cell in cells]
                continue
            if len(cells) > len(tags):
                raise BadRow(reader.line_num, f"it has {len(cells)} cells, and the header row has {len(tags)}")
            yield reader.line_num, csv_body(tags, cells)
    except csv.Error as fault:
        raise BadRow(reader.line_num, f"it is no CSV: {fault}") from None


def tag_of_heading(line, heading):
    tag = fix42.tag_number(heading.encode("latin-1")) or fix42.TAGS_BY_NAME.get(heading.lower())
    if tag is None:
        raise BadRow(line, f"the heading `{heading}` is no tag and no known name of one")
    return tag


def csv_body(tags, cells):
    fields = [(tag, cell.encode("latin-1")) for tag, cell in zip(tags, cells) if cell and tag not in COMPUTED]
    fields.sort(key=lambda field: field[0] != 35)
    return body_of_texts([b"%d=%s" % field for field in fields])


# ---- writing CSV


def columns_of(frame):
    """The cells of a frame by their columns. A column is a heading and, for a tag that is there twice, which one it is."""
    cells, others = {}, []
    for text in fix42.field_texts(frame):
        tag_text, _, value = text.partition(b"=")
        tag = fix42.tag_number(tag_text)
        if tag is None or not value:
            others.append(fix42.escaped(text))
            continue
        number = 0
        while (str(tag), number) in cells:
            number += 1
        cells[str(tag), number] = fix42.escaped(value)
    if others:
        cells[OTHER, 0] = "|".join(others)
    return cells


def write_csv(table, file):
    """Rows of cells by their columns, below a header row of all columns in the order in which they first appear."""
    columns = list(dict.fromkeys(column for cells in table for column in cells))
    writer = csv.writer(file, lineterminator="\n")
    if columns:
        writer.writerow([heading for heading, _ in columns])
    for cells in table:
        writer.writerow([cells.get(column, "") for column in columns])
