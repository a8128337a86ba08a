#!/usr/bin/env python3
"""Take the values of appendix A out of the text of the submission document.

    extract.py DOCUMENT OUTDIR

DOCUMENT is the text (OCR) of the SIMD submission document.  Into OUTDIR go
one data file for each width and damaged.txt; README.md has the format.

Every value written comes from the text.  The text is damaged in places:
table cells are moved, split, merged, misread or lost.  Cells are put back in
place by their labels and their columns on the page.  Then each value is
compared with the reference implementation.  A value that is lost, illegible
or different is left out of the data file and listed in damaged.txt; no value
is ever filled in.
"""

import itertools
import os
import re
import sys

sys.dont_write_bytecode = True
sys.path.insert(0, os.path.join(os.path.dirname(os.path.abspath(__file__)),
                                os.pardir, "reference"))
import simd_ref as ref  # noqa: E402

# Tables of states in the order of the text: the old state, the state xored
# with the block, the states after steps 0 to 35, the new state.
OLD, XOR, FIRST_STEP, NEW = 0, 1, 2, 38
STATE_TABLES = 39

# Letters that stand for digits of the same shape.
GLYPHS = str.maketrans({"O": "0", "o": "0", "l": "1", "I": "1", "h": "b", "ъ": "b"})

HEX = "0123456789abcdef"


# Reading words

def strip_markup(text):
    """Take out formula markup.  A tab before ext{ was once part of it."""
    text = re.sub(r"\\(text|operatorname|mathrm)\b|ext\{", " ", text)
    return re.sub(r"\\quad|\\ |[{}~+$\\]", " ", text)


def is_word(text):
    return len(text) == 8 and all(ch in HEX for ch in text)


def read_word(text):
    """A word of 8 hexadecimal digits from the text of one cell, or None.

    Spaces inside the cell come from formula markup, and so does an equals
    sign, unless a digit is missing: then it stands for an e."""
    joined = re.sub(r"\s", "", strip_markup(text)).translate(GLYPHS)
    for sign in ("", "e"):
        word = joined.replace("=", sign)
        if is_word(word):
            return int(word, 16)
    return None


class Cell:
    """A piece of text found for one value."""

    def __init__(self, line, text, value, place):
        self.line = line      # line number in the document
        self.text = text      # as found
        self.value = value    # None if illegible
        self.place = place    # estimated place in its sequence


def align(cells, count, drop_cost=2.5):
    """Give each cell of a sequence its place, 0 to count - 1.

    The cells are in the order of the text, and places must increase.  Each
    cell has an estimated place; the sum of the differences is made minimal.
    A cell may be dropped at a fixed cost.  Returns ({place: cell}, dropped)."""
    # best[k][p]: least cost of the first k cells in places below p.
    best = [[0] * (count + 1)]
    choice = [[None] * (count + 1)]
    for k, cell in enumerate(cells, 1):
        row, names = [best[k - 1][0] + drop_cost], ["drop"]
        for p in range(1, count + 1):
            cost, name = min(
                (row[p - 1], "skip"),
                (best[k - 1][p] + drop_cost, "drop"),
                (best[k - 1][p - 1] + abs(cell.place - (p - 1)), "take"),
                key=lambda option: option[0])
            row.append(cost)
            names.append(name)
        best.append(row)
        choice.append(names)
    placed, dropped = {}, []
    k, p = len(cells), count
    while k > 0:
        name = choice[k][p]
        if name == "skip":
            p -= 1
            continue
        k -= 1
        if name == "drop":
            dropped.append(cells[k])
        else:
            p -= 1
            placed[p] = cells[k]
    return placed, dropped[::-1]


def fill(placed, loose, places):
    """Cells without a position go to the empty places, in order, if there
    are as many of them.  Returns those that stay without a place."""
    empty = [p for p in places if p not in placed]
    if len(empty) != len(loose):
        return loose
    placed.update(zip(empty, loose))
    return []


# The parts of a compression

class Compression:
    """One compression; a part is a list of (line number, text) pairs."""

    def __init__(self, width, message, block, last):
        self.width, self.message, self.block, self.last = width, message, block, last
        self.parts = {"M": [], "y": [], "Z": [], "W": [], "S": []}

    def name(self):
        return "SIMD-%d message %d block %d" % (self.width, self.message, self.block)


def split_document(lines):
    """The digest lines at the head and the compressions, from numbered lines."""
    start = max(n for n, text in lines if text.strip() == "Appendix A")
    lines = [(n, text) for n, text in lines if n > start]
    head, compressions, hashes = [], [], {}
    width = message = None
    current = part = None
    in_hash = False
    for n, text in lines:
        plain = text.strip()
        if re.fullmatch(r"A\.\d\.? SIMD-\d+", plain):
            width = int(plain[-3:])        # section heading or page heading
            continue
        heading = re.fullmatch(r"A\.\d\.(\d) \w+([- ]\w+)* Message", plain)
        if heading:
            message, current, part, in_hash = int(heading.group(1)), None, None, False
            continue
        if width is None:
            head.append((n, text))
            continue
        if plain in ("First block", "Second block", "Final block"):
            before = [c for c in compressions if (c.width, c.message) == (width, message)]
            current = Compression(width, message, len(before), plain == "Final block")
            compressions.append(current)
            part, in_hash = "M", False
        elif plain == "Hash Function Output":
            in_hash = True
        elif plain == "NTT Output":
            part = "y"
        elif plain == "Intermediate Expanded Message":
            part = "Z"
        elif plain == "Expanded Message":
            part = "W"
        elif plain == "Feistel Steps":
            part = "S"
        elif in_hash:
            if plain and current is not None:
                hashes.setdefault((width, message), []).append((n, text))
        elif current is not None and part is not None:
            if part in ("Z", "W") and state_header(plain) is not None:
                part = "S"
            current.parts[part].append((n, text))
    return head, compressions, hashes


# Message block bytes: M[i..j] = eight bytes

def read_block(part):
    """{index: cell}.  The bytes of a row that has not eight are illegible."""
    found = {}
    for n, text in part:
        for match in re.finditer(r"M\[\s*(\d+)\.+\s*(\d+)\]\s*=([^M]*)", text):
            first = int(match.group(1))
            raw = strip_markup(match.group(3)).split()
            legible = len(raw) == 8 and all(re.fullmatch("[0-9a-f]{2}", v) for v in raw)
            for k in range(8):
                found[first + k] = (Cell(n, raw[k], int(raw[k], 16), first + k) if legible
                                    else Cell(n, " ".join(raw), None, first + k))
    return found


# Transform values: y[i..j] = eight numbers, by columns

def pages(part):
    """Split a part at the fences, where pages break."""
    page = []
    for n, text in part:
        if text.startswith("```"):
            if page:
                yield page
            page = []
        else:
            page.append((n, text))
    if page:
        yield page


def group_rows(page, row):
    """The numbers of a page by row label: [row, [(line, right end, text)]]."""
    groups = []
    for n, text in page:
        label = re.match(r"\s*[yv]\[\s*(\d+)\s*\.+\s*(\d+)\s*\]\s*=?", text)
        if label:
            row = int(label.group(1)) // 8
        start = label.end() if label else 0
        if label or not groups:
            groups.append([row, []])
        groups[-1][1].extend((n, m.end(), m.group())
                             for m in re.finditer(r"\d+", text) if m.start() >= start)
    return groups


def distinct(columns):
    return all(b - a >= 2 for a, b in zip(columns, columns[1:]))


def read_y(part, count):
    """({index: cell}, cells without a place).

    A row of eight numbers in eight columns is taken from left to right.  The
    other numbers of the page go to the nearest columns of such rows."""
    slots = [[] for _ in range(8)]
    loose = []
    row = -1
    for page in pages(part):
        groups = group_rows(page, row)
        row = groups[-1][0]
        full = []
        for _, numbers in groups:
            columns = sorted(end for _, end, _ in numbers)
            if len(columns) == 8 and distinct(columns):
                full.append(columns)
        typical = [sorted(column)[len(full) // 2] for column in zip(*full)]
        for r, numbers in groups:
            columns = sorted(end for _, end, _ in numbers)
            if columns in full:
                slot_of = {end: slot for slot, end in enumerate(columns)}
            elif distinct(columns) and len(columns) < 8:
                # Left to right, at least total distance from the columns.
                options = itertools.combinations(range(8), len(columns))
                best = min(options, key=lambda o: sum(abs(typical[s] - end)
                                                      for s, end in zip(o, columns)))
                slot_of = dict(zip(columns, best))
            else:
                slot_of = {end: min(range(8), key=lambda s: abs(typical[s] - end))
                           for end in columns}
            for n, end, text in numbers:
                cell = Cell(n, text, int(text), r)
                if abs(typical[slot_of[end]] - end) > 6:
                    loose.append(cell)   # the indentation of its line is lost
                else:
                    slots[slot_of[end]].append(cell)
    placed = {}
    for slot, cells in enumerate(slots):
        rows, dropped = align(cells, count // 8)
        loose += dropped
        placed.update((8 * r + slot, cell) for r, cell in rows.items())
    return placed, fill(placed, loose, range(count))


# Matrix rows: Z[i] = R words, W[i] = R words, four words on a line

LABEL = re.compile(r"\s*[ZWw]\s*\[\s*(\d+)\s*\]\s*[:.]?\s*[=_]?\s*=?")


def split_words(text):
    """The words of a line: (start column, text, value) triples.

    Pieces of a word are joined while they make no more than 8 digits.  An
    equals sign before a word of 7 digits stands for an e."""
    found = []
    pieces = [(m.start(), m.group()) for m in re.finditer(r"[^\s=]+", text)]
    k = 0
    while k < len(pieces):
        column, raw = pieces[k]
        k += 1
        joined = raw.translate(GLYPHS)
        if all(ch in HEX for ch in joined):
            while len(joined) < 8 and k < len(pieces):
                more = pieces[k][1].translate(GLYPHS)
                if not all(ch in HEX for ch in more) or len(joined) + len(more) > 8:
                    break
                joined, raw = joined + more, raw + " " + pieces[k][1]
                k += 1
            if len(joined) == 7 and text[:column].rstrip().endswith("="):
                joined, raw = "e" + joined, "= " + raw
        found.append((column, raw, int(joined, 16) if is_word(joined) else None))
    return found


def table_line(text):
    """(row label or None, [(slot, text, value)]) of a line of a table."""
    cells = text.split("\t")
    label = LABEL.match(cells[0])
    words = []
    for slot, cell in enumerate((cells[1:] if len(cells) > 4 else cells)[-4:]):
        cell = re.sub(r"^\[|^\s*=", "", strip_markup(cell))
        words += [(slot, raw, value) for _, raw, value in split_words(cell)]
    return (int(label.group(1)) if label else None), words


def column_line(text, filled):
    """The same of a line set in columns; filled are the slots already met in
    the line of the matrix that is being read."""
    text = strip_markup(text.replace("\t", " ").rstrip())
    label = LABEL.match(text)
    start = label.end() if label else 0
    found = split_words(" " * start + text[start:])
    words = []
    for k, (column, raw, value) in enumerate(found):
        if k > 0:
            gap = column - (found[k - 1][0] + len(found[k - 1][1]))
            slot += 1 if gap <= 8 else 2
        elif label or len(found) == 4:
            slot = 0
        else:
            exact = (column - 8) / 9.8
            slot = min(3, max(0, round(exact)))
            if slot in filled and slot + 1 not in filled and exact - slot > 0.3:
                slot += 1
        words.append((slot, raw, value))
    return (int(label.group(1)) if label else None), words


def read_matrix(part, lines_per_row):
    """({(row, word): cell}, cells without a place).

    A row of 8 words is set in two lines of four; places are lines."""
    count = 32 * lines_per_row
    slots = [[] for _ in range(4)]
    loose = []
    place, filled, fenced = -1, set(), False
    half_row = None                      # row of which one line has been met
    for n, text in part:
        if text.startswith("```"):
            fenced = not fenced
            continue
        if not text.strip():
            continue
        if "\t" in text and not fenced:
            row, words = table_line(text)
        else:
            row, words = column_line(text, filled)
        if row is not None and row * lines_per_row < place:
            row = None                   # a misread label
        illegible = sum(value is None for _, _, value in words)
        if (len(words) > 8 or any(slot > 3 for slot, _, _ in words)
                or row is None and 0 < illegible >= len(words) - 1):
            loose.append(Cell(n, " ".join(text.split())[:60], None, place))
            continue
        double = len(words) > len({slot for slot, _, _ in words})
        if row is not None:
            # Two words in a cell after a row whose second line is not there:
            # the label stands between two lines.
            place = row * lines_per_row - (double and half_row == row - 1)
            filled = set()
        elif any(slot == 0 for slot, _, _ in words):
            place, filled = place + 1, set()
            if fenced and lines_per_row == 2 and place % 2 == 0:
                place += 1               # lines without a label are second lines
        if place >= count:
            loose.append(Cell(n, " ".join(text.split())[:60], None, place))
            continue
        here = set()
        for slot, raw, value in words:
            # A second word in one cell of a table is that of the next line.
            slots[slot].append(Cell(n, raw, value, place + (slot in here)))
            here.add(slot)
        filled |= here
        half_row = row if row is not None and len(words) < 8 else None
        place += double
    placed = {}
    for slot, cells in enumerate(slots):
        lines, dropped = align(cells, count)
        loose += dropped
        for line, cell in lines.items():
            row, half = divmod(line, lines_per_row)
            placed[row, 4 * half + slot] = cell
    return placed, loose


# States: A[0]=.. B[0]=.. C[0]=.. D[0]=..

def state_header(plain):
    """The number of the state table that a heading opens, or None."""
    if re.match(r"[IT]V XOR M\s*[:·.]?$", plain):
        return XOR
    if re.match(r"[IT]V\s*[:·.]$", plain):
        return OLD
    if plain.startswith("Compression Function Output"):
        return NEW
    match = re.match(r"(Feed-Forward )?Step\s+(\d+)\s*:", plain)
    return FIRST_STEP + int(match.group(2)) if match else None


CELL = re.compile(r"([ABCD])\[(\d)\]\s*=\s*((?:(?![ABCD]\[).)*)")


def read_states(part):
    """({(table, column, row): cell}, cells without a place)."""
    cells, moved = {}, {}
    table, seen = OLD, set()
    for n, text in part:
        header = state_header(text.strip())
        if header is not None:
            table, seen = header, set()
            continue
        for match in CELL.finditer(text):
            key = ("ABCD".index(match.group(1)), int(match.group(2)))
            raw = match.group(3).strip()
            if key == (0, 0) and key in seen:    # a table whose heading is elsewhere
                table, seen = table + 1, set()
            cell = Cell(n, raw, read_word(raw), table)
            if table > NEW or (key[1] >= 2 and (0, 0) not in seen):
                moved.setdefault(key, []).append(cell)   # out of its table
                continue
            seen.add(key)
            cells.setdefault(key, []).append(cell)
    placed, loose = {}, []
    for key, sequence in cells.items():
        tables, dropped = align(sequence, STATE_TABLES)
        loose += fill(tables, moved.pop(key, []) + dropped, range(NEW))
        placed.update(((t,) + key, cell) for t, cell in tables.items())
    return placed, loose


# Digests

def read_digests(head):
    """{width: [(line, digest)]}, three for each width, from the head."""
    digests, width = {}, None
    for n, text in head:
        title = re.search(r"SIMD.*?-\}?(\d{3})\(M\)", text)
        if title:
            width = int(title.group(1))
            digests[width] = []
            continue
        row = re.match(r"([^\t]*)\t([0-9a-f]+)$", text)
        if width is None or not row:
            continue
        if row.group(1).strip():
            digests[width].append([n, row.group(2)])
        else:                            # second line of a digest
            digests[width][-1][1] += row.group(2)
    return digests


# Checking and writing

# Repaired values are part of those read: their text is not the plain value.
RESULTS = ("read", "repaired", "different", "illegible", "lost")
KINDS = ("digest", "hash", "M", "y", "Z", "W", "old", "xor", "step", "new")


class Checker:
    """Compares the cells of one message or compression with the computed
    values and keeps what is left out."""

    def __init__(self, name, width, tally, report):
        self.name, self.width, self.tally, self.report = name, width, tally, report
        self.good = {}                   # {(label, index): line} of values read
        self.bad = []                    # (label, index, result, cell, expected)

    def take(self, kind, label, index, cell, expected, form):
        """The value to write, or None."""
        if cell is None:
            result = "lost"
        elif cell.value is None:
            result = "illegible"
        elif cell.value != expected:
            result = "different"
        else:
            result = "read"
        key = (self.width, kind, result)
        self.tally[key] = self.tally.get(key, 0) + 1
        if result == "read":
            self.good[label, index] = cell.line
            if cell.text != form % expected:
                key = (self.width, kind, "repaired")
                self.tally[key] = self.tally.get(key, 0) + 1
            return form % cell.value
        self.bad.append((label, index, result, cell, form % expected))
        return None

    def finish(self, twins, spans):
        """Report; twins(label, index) are other places with the same value."""
        runs = {}
        for label, index, result, cell, expected in self.bad:
            if result == "lost":
                runs.setdefault(label, []).append(index)
                continue
            if label == "M":             # one entry for a row of bytes
                if index % 8 == 0:
                    self.report[result].append("%s M %d to %d: line %d: found '%s'" % (
                        self.name, index, index + 7, cell.line, cell.text))
                continue
            place = label if index is None else "%s %s" % (label, index)
            entry = "%s %s: line %d: found '%s', computed %s" % (
                self.name, place, cell.line, cell.text, expected)
            for twin in twins(label, index):
                if twin in self.good:
                    entry += "; so has %s %s, line %d" % (twin + (self.good[twin],))
                    break
            self.report[result].append(entry)
        for label, indices in runs.items():
            self.report["lost"].append("%s %s %s: %d values; table in lines %s" % (
                self.name, label, ranges(indices), len(indices), spans[label[0]]))

    def unplaced(self, label, cells):
        for cell in cells:
            self.report["unplaced"].append("%s %s: line %d: found '%s'" % (
                self.name, label, cell.line, cell.text))


def ranges(indices):
    """A short form of a list of numbers, or of names such as A0."""
    runs = []
    for index in indices:
        prefix, number = re.fullmatch(r"([A-D]?)(\d+)", str(index)).groups()
        number = int(number)
        if runs and runs[-1][0] == prefix and runs[-1][2] == number - 1:
            runs[-1][2] = number
        else:
            runs.append([prefix, number, number])
    return " ".join("%s%d" % (p, a) if a == b else "%s%d-%s%d" % (p, a, p, b)
                    for p, a, b in runs)


def state_label(table):
    return {OLD: "I", XOR: "X", NEW: "O"}.get(table, "S %d" % (table - FIRST_STEP))


def state_kind(table):
    return {OLD: "old", XOR: "xor", NEW: "new"}.get(table, "step")


def twins(label, index):
    """Other places of the document that list the same value: rows of Z and W
    are the same by P, and words move through the columns of the state."""
    if label[0] == "Z":
        return [("W %d" % ref.P.index(int(label[2:])), index)]
    if label[0] == "W":
        return [("Z %d" % ref.P[int(label[2:])], index)]
    if label[0] == "S":
        step, column, row = int(label[2:]), "ABCD".index(index[0]), index[1:]
        return [("S %d" % (step + other - column), "ABCD"[other] + row)
                for other in range(4) if other != column]
    return []


def write_compression(out, comp, old_state, block, tally, report):
    """Write what the document has of one compression; returns the new state."""
    width, r = comp.width, ref.rows(comp.width)
    check = Checker(comp.name(), width, tally, report)
    spans = {}
    for part in comp.parts:
        numbers = [n for n, text in comp.parts[part] if text.strip()]
        spans[part] = "%d-%d" % (numbers[0], numbers[-1]) if numbers else "(none)"
    spans["I"] = spans["X"] = spans["O"] = spans["S"]

    def write(label, values):
        if any(values):
            out.write("%s %s\n" % (label, " ".join(v or "-" for v in values)))

    out.write("block %d last %d\n" % (comp.block, comp.last))

    size = ref.block_bytes(width)
    found = read_block(comp.parts["M"])
    for i in range(0, size, 8):
        write("M %d" % i, [check.take("M", "M", i + k, found.get(i + k), block[i + k], "%02x")
                           for k in range(8)])

    y = ref.transform(width, comp.last, block)
    found, loose = read_y(comp.parts["y"], len(y))
    check.unplaced("y", loose)
    for i in range(0, len(y), 8):
        write("y %d" % i, [check.take("y", "y", i + k, found.get(i + k), y[i + k], "%d")
                           for k in range(8)])

    z = ref.matrix_of(width, y)
    w = [z[ref.P[i]] for i in range(32)]
    for kind, matrix in (("Z", z), ("W", w)):
        found, loose = read_matrix(comp.parts[kind], r // 4)
        check.unplaced(kind, loose)
        for i in range(32):
            label = "%s %d" % (kind, i)
            write(label, [check.take(kind, label, j, found.get((i, j)), matrix[i][j], "%08x")
                          for j in range(r)])

    states = [old_state] + ref.compress_states(width, comp.last, old_state, block)
    states.append(states[-1])
    found, loose = read_states(comp.parts["S"])
    check.unplaced("state", loose)
    for table in range(STATE_TABLES):
        label = state_label(table)
        for c, column in enumerate("ABCD"):
            write("%s %s" % (label, column),
                  [check.take(state_kind(table), label, "%s%d" % (column, j),
                              found.get((table, c, j)), states[table][c][j], "%08x")
                   for j in range(r)])
    check.finish(twins, spans)
    return states[-1]


def write_message(out, width, m, data, bits, digest, hashes, comps, tally, report):
    """Write what the document has of one message."""
    check = Checker("SIMD-%d message %d" % (width, m), width, tally, report)
    expected = ref.digest(width, data, bits).hex()
    out.write("message %d bits %d\n" % (m, bits))
    out.write("data %s\n" % (data.hex() or "-"))
    line, text = digest
    value = check.take("digest", "digest", None, Cell(line, text, text, 0), expected, "%s")
    out.write("digest %s\n" % (value or "-"))
    cell = None                          # the second listing, after the last block
    if hashes:
        line, text = hashes[0]
        text = text.replace(" ", "").replace("`", "")
        legible = re.fullmatch("[0-9a-f]{%d}" % (width // 4), text)
        cell = Cell(line, text[:width // 4] + ("" if legible else " .."),
                    text if legible else None, 0)
    if cell is not None:
        check.take("hash", "hash", None, cell, expected, "%s")
    else:
        check.take("hash", "hash", 0, None, expected, "%s")
    blocks = ref.all_blocks(width, data, bits)
    if [comp.last for comp in comps] != [last for last, _ in blocks]:
        raise SystemExit("SIMD-%d message %d: blocks not found" % (width, m))
    check.finish(twins, {"h": "(none)"})
    state = ref.start_state(width)
    for comp, (_, block) in zip(comps, blocks):
        state = write_compression(out, comp, state, block, tally, report)


def write_damage(path, report):
    titles = (("different", "Legible, but not the computed value"),
              ("illegible", "Present, but not a value"),
              ("unplaced", "Text in a table that belongs to no place in it"),
              ("lost", "Not in the text"))
    with open(path, "w", encoding="utf-8") as out:
        out.write("# What the data files leave out.  Line numbers are those of the\n"
                  "# document's text.  'so has' names another place of the document\n"
                  "# that lists the computed word (column A before its rotation).\n")
        for result, title in titles:
            out.write("\n# %s: %d entries\n" % (title, len(report[result])))
            for entry in report[result]:
                out.write("%s: %s\n" % (result, entry))


def print_tally(tally):
    print("%-6s %-7s" % ("width", "kind") + "".join("%11s" % r for r in RESULTS))
    totals = dict.fromkeys(RESULTS, 0)
    for width in ref.WIDTHS:
        for kind in KINDS:
            row = [tally.get((width, kind, r), 0) for r in RESULTS]
            for r, n in zip(RESULTS, row):
                totals[r] += n
            print("%-6d %-7s" % (width, kind) + "".join("%11d" % n for n in row))
    print("%-14s" % "total" + "".join("%11d" % totals[r] for r in RESULTS))


def main(argv):
    if len(argv) != 3:
        sys.stderr.write("usage: extract.py DOCUMENT OUTDIR\n")
        return 2
    with open(argv[1], encoding="utf-8") as f:
        lines = list(enumerate(f.read().split("\n"), 1))
    head, compressions, hashes = split_document(lines)
    digests = read_digests(head)
    tally = {}
    report = {"different": [], "illegible": [], "unplaced": [], "lost": []}
    for width in ref.WIDTHS:
        path = os.path.join(argv[2], "simd%d.txt" % width)
        with open(path, "w", encoding="ascii") as out:
            out.write("width %d\n" % width)
            for m, (data, bits) in enumerate(ref.appendix_a_messages(width), 1):
                comps = [c for c in compressions if (c.width, c.message) == (width, m)]
                write_message(out, width, m, data, bits, digests[width][m - 1],
                              hashes.get((width, m)), comps, tally, report)
    write_damage(os.path.join(argv[2], "damaged.txt"), report)
    print_tally(tally)
    return 0


if __name__ == "__main__":
    sys.exit(main(sys.argv))
