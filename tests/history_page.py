"""The pages of a history, of text and of HTML, and its list as comma-separated values, in plain Python.

Written from the definitions of the page, of its tables and plots and of the list's lines, and not from the Rattle code. The tables are those of page.py; the
numbers come from history.py, and sheet.py reads the text. make_cases.py makes of it what history_report, history_report_html and history_report_csv are
expected to write, and histories holds the programs to it.
"""
import itertools

import history
import page
import sheet

# a share is in billionths; an axis in percent, or in thousandths of one, has so many of them to 1
SHARE_DECIMALS, LEVEL_DECIMALS = 9, 2
PERCENT, THOUSANDTH = 10**7, 10**4

# the rows of a table, at most
ROWS = 16

OPENING = "Shares are parts of 1, with nine decimals; levels are amounts a claim, with two."
POSITION = (
    "<b>Position:</b> a window of origin years, taken as a record of its own: the cells inside it that were paid by its last year. The next position begins one "
    "origin year later, up to the latest payment year. A row has the shares of a position, the part of an origin year's payments that falls into each development "
    "year; down a column it is seen how a share drifts. A position that does not pass questions 7 to 10 has the number of the first that refuses it, and no shares "
    "or levels.")
LEVEL = (
    "<b>Level:</b> what a whole claim costs at the prices of one payment year. The columns are the payment years of a position, counted from its first origin year, "
    "which is payment year 0.")

# what is not so where a question refuses a position
REFUSED = {
    7: "a column or a diagonal of the averages adds up to less than 0, or all averages to more than 1,000,000,000 hundredths",
    8: "the triangle has no exact solution of the kind the method needs: beside some development year h nothing is left, T_h - v_h is below 1",
    9: "a running share A_h, the shares up to a year together, is below a billionth",
    10: "a level l_h is above 1,000,000,000 hundredths a claim",
}


def taken(text):
    """Years, width and the positions of a text, each its number, shares and levels, and None; or None and what is said of it."""
    numbers, said = sheet.read_history(text)
    if said:
        return None, said
    return positions(numbers)


def positions(numbers):
    """As `taken`, of the numbers of a text: years, width, exposures and increments by row."""
    years, width, rest = numbers[0], numbers[1], numbers[2:]
    exposures, cells = rest[:years], rest[years:]
    answer, entries = history.history(years, width, exposures, cells, max(history.result_count(years, width), 0))
    assert answer == 0
    each = 1 + 2 * width
    found = [entries[place:place + each] for place in range(0, len(entries), each)]
    return (years, width, [(entry[0], entry[1:1 + width], entry[1 + width:]) for entry in found]), None


def opening(made, title, first, years, width):
    name = page.escaped(title or b"Shares through a history", made.html)
    last = first + years - 1
    if made.html:
        style = page.STYLE.replace("FOOT", f"{page.VERSION}, history of the origin years from {first}")
        made.put('<!DOCTYPE html>\n<html lang="en">\n<head>\n<meta charset="utf-8">\n<meta name="viewport" content="width=device-width,initial-scale=1">\n')
        made.put(f"<title>{name}</title>\n<style>\n{style}</style>\n</head>\n<body>\n<h1>{name}</h1>\n")
        made.paragraph(f"{page.VERSION}. History of the origin years <b>{first} to {last}</b>, windows of {width} years. {OPENING}")
    else:
        made.put(f"{name}\n{page.VERSION}, history of the origin years {first} to {last}, windows of {width} years\n")


def tables(made, caption, first, width, found, which, decimals):
    """A row for each position: entry `which` of it, and the number of one that is refused, whose other cells are blank; sixteen rows a table."""
    rows = [[None] * width + [page.Cell(position[0])] if position[0] else page.cells(position[which], decimals) for position in found]
    for start in range(0, len(rows), ROWS):
        part = rows[start:start + ROWS]
        made.table(caption, ["first origin year", *range(width), "refused by question"], [first + start + place for place in range(len(part))], part)


def plot(made, first, j, found):
    """How the share of development year j drifts: a bar for each position that is not refused, and a label under every second position."""
    shares = [position[1][j] for position in found]
    largest = max(shares)
    # no share is below zero
    assert min(shares) >= 0
    one, what = (PERCENT, "percent") if largest >= PERCENT else (THOUSANDTH, "thousandths of a percent")
    step = next(step for step in (one * digit * 10**power for power in itertools.count() for digit in (1, 2, 5)) if 5 * step >= largest)
    up = max(1, -(-largest // step))
    tick = 180 // up
    zero = 24 + tick * up
    wide = max(300, 56 + 30 * ((len(found) + 1) // 2))
    least = 2 * wide // 3
    unit, name = max((unit, name) for unit, name in ((1, ""), (10**3, "thousands"), (10**6, "millions"), (10**9, "thousand millions")) if one * unit <= step)
    title = f"Share of development year {j} by position"
    made.put(f'<figure style="flex-basis:{least}px"><figcaption>{title}</figcaption>\n')
    made.put(f'<svg role="img" viewBox="0 0 {wide} {zero + 24}" style="min-width:{least}px;max-width:{wide}px">\n<title>{title}</title>\n')
    made.put("<desc>A bar for each position that is not refused, by its first origin year. The figures are in the tables of shares.</desc>\n")
    made.put(f'<text class="l" x="0" y="12">{" ".join(word for word in (name, what) if word)}</text>\n')
    for m in range(up + 1):
        y = zero - tick * m
        made.put(f'<path d="M50 {y}H{wide}"/><text x="46" y="{y + 4}">{page.numeral(m * (step // (one * unit)), 0, *page.SPACED)}</text>\n')
    for a, (number, *_) in enumerate(found):
        if not number:
            height = tick * shares[a] // step
            made.put(f'<rect class="a" x="{58 + 15 * a}" y="{zero - height}" width="11" height="{height}">')
            made.put(f"<title>{first + a}: {page.numeral(shares[a], SHARE_DECIMALS, *page.SPACED)}</title></rect>\n")
        if a % 2 == 0:
            made.put(f'<text class="m" x="{63 + 15 * a}" y="{zero + 16}">{first + a}</text>\n')
    made.put(f'<path class="z" d="M50 {zero}H{wide}"/>\n</svg></figure>\n')


def pages(listed, html=False, title=b"", first=0):
    """The page that history_report, or history_report_html, writes of years, width and positions, as text of one byte a character."""
    years, width, found = listed
    made = page.Page(html)
    opening(made, title, first, years, width)
    made.start("Shares through the history")
    made.paragraph(POSITION)
    tables(made, "Shares by position and development year", first, width, found, 1, SHARE_DECIMALS)
    if html:
        made.put('<div class="p">\n')
        for j in range(width):
            plot(made, first, j, found)
        made.put("</div>\n")
    made.end()
    made.start("Levels through the history")
    made.paragraph(LEVEL)
    tables(made, "Levels by position and payment year, counted from the first of the window", first, width, found, 2, LEVEL_DECIMALS)
    made.end()
    numbers = sorted({position[0] for position in found} - {0})
    if numbers:
        made.start("Refused positions")
        for number in numbers:
            said = f"Refused by question {number}: {REFUSED[number]}."
            made.put(f"<p>{said}</p>\n" if html else said + "\n")
        made.end()
    made.web("</body>\n</html>\n")
    return "".join(made.parts)


def csv(listed, first=0):
    """The lines that history_report_csv writes: section, first origin year of the position, development or payment year, value, unit."""
    _, _, found = listed
    lines = [("section", "first origin year", "development or payment year", "value", "unit")]
    for start, (number, shares, levels) in enumerate(found, first):
        lines.append(("number", start, "", number, "question"))
        lines += [("share", start, j, share, "billionths") for j, share in enumerate(shares)]
        lines += [("level", start, h, level, "hundredths a claim") for h, level in enumerate(levels)]
    return "".join(",".join(map(str, line)) + "\n" for line in lines)


def text_of(width, exposures, rows):
    """The text of a history."""
    lines = [("years", [len(rows)]), ("width", [width]), ("exposures", exposures), *(("paid", row) for row in rows)]
    return "".join(" ".join([label, *map(str, numbers)]) + "\n" for label, numbers in lines).encode()
