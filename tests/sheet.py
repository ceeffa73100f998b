"""Figures and histories typed as text, read by cells, in plain Python: the numbers, or what is said of the text.

Written from the rules of docs/SHEET.md, with regular expressions and splitting, and not from the Rattle code. make_cases.py makes of it what pack is
expected to give for each text of tests/texts, and history_texts.py what is said of each text of a history. The indices of an `inflation` line are those of
inflation.py.
"""

import re

import inflation

MARK = b"\xef\xbb\xbf"


def table(k):
    """The lines of the years 0 to k: label, how many numbers, the least and the most of each."""
    amount = 10**10
    return ([("k", 1, 1, 15), ("exposures", k + 1, 1, 10**6)] + [("paid", k + 1 - i, -amount, amount) for i in range(k + 1)] +
            [("indices", k + 1, 1, 5 * 10**6), ("reporting", k + 1, 0, 10**6), ("weight", 1, 0, 10**6), ("ulae", k + 1, 0, amount),
             ("tail", 1, 0, amount)])


def history_table(years):
    """The lines of a history of so many years, as table."""
    amount = 10**10
    return ([("years", 1, 2, 64), ("width", 1, 2, min(16, years)), ("exposures", years, 1, 10**6)] +
            [("paid", min(16, years - i), -amount, amount) for i in range(years)])


# the refusal where a number of the line due at a place is out of its range
def refusal(place):
    return 4 if place else 1


def history_refusal(place):
    return 28 if place > 1 else 27


def content(line):
    """A line without a carriage return at its very end, up to its first # right after a space; nothing of a line that begins with #."""
    line = re.sub(rb"\r\Z", b"", line)
    return b"" if line.lstrip(b' "').startswith(b"#") else re.split(rb"(?<= )#", line, maxsplit=1)[0]


def unquoted(cell):
    quoted = re.fullmatch(rb'"(.*)"', cell, re.DOTALL)
    return quoted[1] if quoted else cell


def cells(line):
    """The label and the cells of a line's content."""
    label = re.match(rb' *(?:"([^"]*)"?|([^ \t,;]*))', line)
    after = line[label.end():]
    if after[:1] in (b",", b";", b"\t"):
        pieces = after[1:].split(after[:1])
    else:
        pieces = [piece for piece in re.split(rb"[ \t]", after) if piece]
    while pieces and not pieces[-1].strip(b' "'):
        pieces.pop()
    return (label[2] if label[1] is None else label[1]), [unquoted(piece.strip(b" ")) for piece in pieces]


def filled(lines):
    """Number, label and cells of each line that is not skipped."""
    for number, line in enumerate(lines, 1):
        line = content(line)
        if line.strip(b' \t,;"'):
            yield number, *cells(line)


def named(word):
    return b"`" + word[:20] + b"`"


def shown(word):
    return named(word) if word else b"an empty cell"


def about(number, name, word, due):
    return f"number {number} of `{name}` is ".encode() + shown(word) + f", and {due} is due".encode()


def counted(name, count, words):
    takes = f"{count} number{'' if count == 1 else 's'}"
    return f"`{name}` takes {takes}, and {len(words)} {'stands' if len(words) == 1 else 'stand'} there".encode()


def starts(name):
    """The labels with which the line due may start."""
    return "`indices` or `inflation`" if name == "indices" else f"`{name}`"


def problem(due, label, words, number_refused=1):
    """What is wrong with a line where this one is due: the refusal, if it is one, and the words; None where nothing is."""
    name, count, least, most = due
    if label != name.encode():
        return "", f"a line that starts with {starts(name)} is due, not with ".encode() + named(label)
    number_due = f"a whole number from {least} to {most}"
    for number, word in enumerate(words, 1):
        if not re.fullmatch(rb"-?[0-9]+", word):
            return "", about(number, name, word, number_due)
    if len(words) != count:
        return "", counted(name, count, words)
    for number, word in enumerate(words, 1):
        if not least <= int(word) <= most:
            return f"refused {number_refused}: ", about(number, name, word, number_due)
    return None


def is_hex(word):
    return re.fullmatch(rb"[0-9A-Fa-f]{16}", word)


def is_rate(word):
    is_decimal = re.fullmatch(rb"-?[0-9]+(?:\.[0-9]+)?", word)
    return is_hex(word) or is_decimal and len(word.strip(b"-").replace(b".", b"")) <= 15


def is_year(word):
    return re.fullmatch(rb"[0-9]+", word)


def rate(word):
    """The rate of a word that is one; None where its bits are no number."""
    return inflation.of_bits(int(word, 16)) if is_hex(word) else inflation.decimal(word.decode())


def call(words):
    """The shape and the numbers of the cells of an `inflation` line."""
    shape = words[0].decode()
    count = 1 + inflation.SHAPES[shape]
    return shape, [rate(word) for word in words[1:count]] + [int(word) for word in words[count:]]


def inflation_problem(words, years):
    """As problem, of the cells of an `inflation` line where so many years are wanted."""
    shape, *numbers = words or [b""]
    if shape not in (b"flat", b"fading", b"shock"):
        return "", b"`flat`, `fading` or `shock` is due after `inflation`, not " + shown(shape)
    name = shape.decode()
    # of each number its form, and the words where it has another and where it is out of range
    forms = [(is_rate, "a decimal of at most 15 digits or 16 hex digits", "a rate from -0.5 to 1.0")] * inflation.SHAPES[name]
    forms += [(is_year, f"a year from 1 to {years}", f"a year from 1 to {years}")] * (name == "shock")
    if len(numbers) != len(forms):
        return "", counted(name, len(forms), numbers)
    for place, (word, (is_fine, due, _)) in enumerate(zip(numbers, forms), 1):
        if not is_fine(word):
            return "", about(place, name, word, due)
    for place in inflation.out_of_range(*call(words), years):
        return "refused 20: ", about(place, name, numbers[place - 1], forms[place - 1][2])
    for year in inflation.years_past(inflation.every_index(*call(words), years)):
        return "refused 21: ", f"the index of year {year} leaves 1 to 5,000,000".encode()
    return None


def said(number, wrong):
    return wrong[0].encode() + f"line {number}: ".encode() + wrong[1]


def ahead(lines):
    """What is said of the first `inflation` line before any other line is read but that of k, which must be fine; None where nothing is."""
    if not lines or problem(table(0)[0], *lines[0][1:]):
        return None
    years = int(lines[0][2][0]) + 1
    for number, label, words in lines:
        if label == b"inflation":
            wrong = inflation_problem(words, years)
            return said(number, wrong) if wrong else None
    return None


def lines_of(text):
    """The lines of a text, without the mark at its start."""
    return (text[3:] if text.startswith(MARK) else text).split(b"\n")


def by_lines(lines, lines_due, refused, stands_for=lambda due, label: False):
    """The numbers of the lines, which are those due after the first number, and None, or None and what is said of the first that is not. A line that stands for the
    one due goes to its place as it is."""
    numbers, place = [], 0
    for number, label, words in filled(lines):
        due = lines_due(numbers[0] if numbers else 0)
        if place == len(due):
            return None, f"line {number}: ".encode() + named(label) + b" stands where the text should end: there is more than the figures call for"
        if stands_for(due[place][0], label):
            numbers += inflation.every_index(*call(words), numbers[0] + 1)
        else:
            wrong = problem(due[place], label, words, refused(place))
            if wrong:
                return None, said(number, wrong)
            numbers += [int(word) for word in words]
        place += 1
    due = lines_due(numbers[0] if numbers else 0)
    if place < len(due):
        return None, f"line {len(lines)}: the text ends where {starts(due[place][0])} is due".encode()
    return numbers, None


def read(text):
    """The fields of a text and None, or None and what pack says."""
    if not text:
        return None, b"nothing arrived: no text on standard input"
    if len(text) > 65535:
        return None, b"the text is longer than 65,535 bytes"
    lines = lines_of(text)
    first = ahead(list(filled(lines)))
    if first:
        return None, first
    fields, wrong = by_lines(lines, table, refusal, lambda due, label: due == "indices" and label == b"inflation")
    if wrong:
        return None, wrong
    k = fields[0]
    if sum(fields[-2 * k - 4:-k - 3]) != 10**6:
        return None, b"refused 5: the reporting shares do not sum to 1,000,000"
    return fields, None


def read_history(text):
    """Years, width, exposures and increments by row of the text of a history, all in one list, and None, or None and what is said of it."""
    return by_lines(lines_of(text), history_table, history_refusal)
