"""The report of a record as a page of HTML or of text, its result list as comma-separated values, and the figures of a record as text, in plain Python.

Written from the design of the page, docs/SHEET.md and the definitions of the list's lines and of the sheet, by a hand that had read the definitions of the
report's tables, plots and figures too, and before any Rattle code made a page. The words of a refused record are those of the design's table of refused records, six
of them changed on purpose; the place where the answer is no and the figures there are worked out from documents 01 and 02, without the Rattle code. The numbers come
from model.py; the line of inflation is read by sheet.py, and its indices are those of inflation.py. make_cases.py makes of it what report, csv, rates and unpack
are expected to write.
"""

import itertools
import os
import textwrap

import inflation
import model
import sheet as texts

def fixed(value, decimals):
    """A number that counts units of 10^-decimals."""
    if decimals == 0:
        return str(value)
    whole, part = divmod(abs(value), 10**decimals)
    return f"{'-' if value < 0 else ''}{whole}.{part:0{decimals}d}"


def sections(k, results):
    """The sections of the result list in their order; those that have rows by row, row i of the cells past the diagonal being i long."""
    rest = iter(results)

    def take(count):
        return [next(rest) for _ in range(count)]

    years = range(k + 1)
    averages = [take(k + 1 - i) for i in years]
    shares, levels, future = take(k + 1), take(k + 1), take(k)
    payments = [take(i) for i in years]
    provisions, provision_total = take(k + 1), take(1)[0]
    unreported, reserves, reserve_total, ratio = take(k + 1), take(k + 1), take(1)[0], take(1)[0]
    factors = take(k)
    completed = [take(i) for i in years]
    tails = take(k + 1)
    assert next(rest, None) is None
    return averages, shares, levels, future, payments, provisions, provision_total, unreported, reserves, reserve_total, ratio, factors, completed, tails


def worked(year, record):
    """Of a record that the engine accepts in a valuation year: k, the result list, what is paid by origin year, the plain ULAE ratio, and from 2027 on what is
    reported and paid in the latest year and the divisor."""
    k = record[0] >> 4
    number, results = model.run(year, record, model.result_count(k))
    assert number == 0
    given = model.lists(model.read(record, model.field_count(k)))
    P = model.by_row(k, given["P"])
    paid = [sum(row) for row in P]
    provisions = sections(k, results)[5]
    growth = None
    if year >= model.FIRST_CORRECTED:
        growth = model.growth(k, P, given["b"], given["w"][0], [paid[i] + provisions[i] for i in range(k + 1)])
    return k, results, paid, model.plain_ratio(P, given["U"]), growth


# S, the shares' unit
S = model.S

# the package and its version
VERSION = "Doonamurk 1.0"

SPACED, GAPS = (" ", ""), ("<i>", "</i>")


def numeral(value, decimals, before, after):
    """A number that counts units of 10^-decimals, its whole part in groups of three digits."""
    whole, part = divmod(abs(value), 10**decimals)
    digits = str(whole)
    first = len(digits) % 3 or 3
    groups = digits[:first] + "".join(before + digits[place:place + 3] + after for place in range(first, len(digits), 3))
    return ("-" if value < 0 else "") + groups + (f".{part:0{decimals}d}" if decimals else "")


class Cell:
    """A number of a table: how many decimals it has, and its mark: the class of its cell, or % for a percentage and year for a year, which have none."""

    def __init__(self, value, decimals=0, mark=""):
        self.value, self.decimals, self.mark = value, decimals, mark

    def text(self):
        return fixed(self.value, self.decimals) + ("%" if self.mark == "%" else "")

    def html(self):
        number = self.text() if self.mark == "year" else numeral(self.value, self.decimals, *GAPS) + ("%" if self.mark == "%" else "")
        return f'<td class="{self.mark}">{number}</td>' if self.mark not in ("", "%", "year") else f"<td>{number}</td>"


def cells(values, decimals=0, mark=""):
    return [Cell(value, decimals, mark) for value in values]


def beside(*columns):
    """The rows of columns; a shorter one ends with blanks."""
    return [list(row) for row in itertools.zip_longest(*columns)]


class Page:
    """A page as it is written: HTML, or text."""

    def __init__(self, html):
        self.html, self.parts = html, []

    def put(self, text):
        self.parts.append(text)

    def web(self, text):
        """What stands on the HTML page alone."""
        if self.html:
            self.put(text)

    def start(self, title):
        self.put(f"<section>\n<h2>{title}</h2>\n" if self.html else f"\n{title}\n")

    def end(self):
        self.web("</section>\n")

    def paragraph(self, text):
        self.web(f"<p>{text}</p>\n")

    def table(self, caption, heads, labels, rows, total=None, key=False):
        """rows: lists of cells or None; total: a label and its row."""
        labels = [str(label) for label in labels]
        heads = [str(head) for head in heads]
        width = len(heads) - 1
        rows = [row + [None] * (width - len(row)) for row in rows]
        body = list(zip(labels, rows))
        foot = [(total[0], total[1] + [None] * (width - len(total[1])))] if total else []
        widest = [max(len(row[j].text()) if row[j] else 0 for _, row in body + foot) for j in range(width)]
        if not self.html:
            self.text_table(caption, heads, body + foot, widest)
            return

        def line(label, row):
            return f'<tr><th scope="row">{label}</th>' + "".join(cell.html() if cell else "<td></td>" for cell in row) + "</tr>\n"

        measure = 6 + sum(2 + max(4, places) for places in widest)
        self.put(f"""<div class="t" tabindex="0"><table{' class="k"' if key else ''} style="--n:{measure}">\n<caption>{caption}</caption>\n""")
        self.put("<thead><tr>" + "".join(f'<th scope="col">{head}</th>' for head in heads) + "</tr></thead>\n<tbody>\n")
        self.put("".join(line(*row) for row in body) + "</tbody>\n")
        if foot:
            self.put("<tfoot>\n" + line(*foot[0]) + "</tfoot>\n")
        self.put("</table></div>\n")

    def text_table(self, caption, heads, rows, widest):
        places = max(len(text) for text in [heads[0]] + [label for label, _ in rows])
        widths = [2 + max(len(head), most) for head, most in zip(heads[1:], widest)]
        self.put(f"\n{caption}\n")
        self.put(heads[0].ljust(places) + "".join(head.rjust(width) for head, width in zip(heads[1:], widths)) + "\n")
        for label, row in rows:
            while row and row[-1] is None:
                row = row[:-1]
            self.put(label.ljust(places) + "".join((cell.text() if cell else "").rjust(width) for cell, width in zip(row, widths)) + "\n")

    def plot(self, title, description, one, decimals, what, slots, legend):
        """slots: a label and a list of marks and values."""
        if not self.html:
            return
        values = [value for _, bars in slots for _, value in bars]
        highest, lowest = max([0] + values), max([0] + [-value for value in values])
        steps = (one * digit * 10**power for power in itertools.count() for digit in (1, 2, 5))
        step = next(step for step in steps if 5 * step >= max(highest, lowest))
        up, down = max(1, -(-highest // step)), -(-lowest // step)
        tick = 180 // (up + down)
        zero, foot = 24 + tick * up, 24 + tick * (up + down)
        wide = max(300, 56 + 30 * len(slots))
        least = 2 * wide // 3
        unit, name = max((unit, name) for unit, name in ((1, ""), (10**3, "thousands"), (10**6, "millions"), (10**9, "thousand millions")) if one * unit <= step)
        legend = "".join(f' <b class="{mark}"></b> {word}' for mark, word in legend)
        self.put(f'<figure style="flex-basis:{least}px"><figcaption>{title}{legend}</figcaption>\n')
        self.put(f'<svg role="img" viewBox="0 0 {wide} {foot + 24}" style="min-width:{least}px;max-width:{wide}px">\n')
        self.put(f"<title>{title}</title>\n<desc>{description}</desc>\n")
        self.put(f'<text class="l" x="0" y="12">{" ".join(word for word in (name, what) if word)}</text>\n')
        for m in range(-down, up + 1):
            y = zero - tick * m
            self.put(f'<path d="M50 {y}H{wide}"/><text x="46" y="{y + 4}">{numeral(m * (step // (one * unit)), 0, *SPACED)}</text>\n')
        for place, (label, bars) in enumerate(slots):
            x = 56 + 30 * place
            for (mark, value), (shift, width) in zip(bars, [(4, 22)] if len(bars) == 1 else [(2, 13), (15, 13)]):
                height = tick * abs(value) // step
                y = zero if value < 0 else zero - height
                self.put(f'<rect class="{mark}" x="{x + shift}" y="{y}" width="{width}" height="{height}">')
                self.put(f"<title>{label}: {numeral(value, decimals, *SPACED)}</title></rect>\n")
            self.put(f'<text class="m" x="{x + 15}" y="{foot + 16}">{label}</text>\n')
        self.put(f'<path class="z" d="M50 {zero}H{wide}"/>\n</svg></figure>\n')


class Figures:
    """What a page shows of an accepted record, worked out from the record's fields and the result list."""

    def __init__(self, year, record):
        self.year = year
        self.k, results, self.paid, self.plain, self.growth = worked(year, record)
        (self.averages, self.shares, self.levels, self.future, self.payments, self.provisions, self.provision, self.unreported, self.reserves, self.reserve,
         self.ratio, self.factors, self.completed, self.tails) = sections(self.k, results)
        given = model.lists(model.read(record, model.field_count(self.k)))
        self.n, self.e, self.b, self.w, self.U, self.amount = given["n"], given["e"], given["b"], given["w"][0], given["U"], given["a"][0]
        self.P = model.by_row(self.k, given["P"])
        years = range(self.k + 1)
        self.cumulatives = [list(itertools.accumulate(row)) for row in self.P]
        self.ladder = [self.completed[i][-1] if i else self.paid[0] for i in years]
        self.remaining = [self.ladder[i] - self.paid[i] for i in years]
        self.ultimates = [self.paid[i] + self.provisions[i] for i in years]
        self.fitted = [[self.shares[j] * self.levels[i + j] // S for j in range(self.k + 1 - i)] for i in years]
        self.gaps = [[s - f for s, f in zip(*rows)] for rows in zip(self.averages, self.fitted)]
        # document 01's allowances in hundredths, with the tail payment's of request 3
        self.tail_allowances = [n + 100 for n in self.n]
        self.allowances = [sum(self.n[i] * (5 * (self.k - j + 1) + 2) + 100 for j in range(self.k + 1 - i, self.k + 1)) + self.tail_allowances[i] for i in years]
        self.margins = [allowance + 300 for allowance in self.allowances]
        self.expected = [sum(self.payments[i][t] for i in range(t + 1, self.k + 1)) + self.tails[t] for t in years]
        assert sum(self.expected) == self.provision


STYLE = open(os.path.join(os.path.dirname(os.path.abspath(__file__)), "page.css")).read()


def escaped(title, html):
    """A title as it stands in a page."""
    plain = bytes(32 if byte < 32 or byte == 127 else byte for byte in title)
    if html:
        for sign, entity in ((b"&", b"&amp;"), (b"<", b"&lt;"), (b">", b"&gt;")):
            plain = plain.replace(sign, entity)
    return (plain or b"Reserving report").decode("latin-1")


def opening(page, year, title, first, k, size):
    """The start of a page; k is None where it is not known."""
    name = escaped(title, page.html)
    if page.html:
        page.put('<!DOCTYPE html>\n<html lang="en">\n<head>\n<meta charset="utf-8">\n<meta name="viewport" content="width=device-width,initial-scale=1">\n')
        page.put(f"<title>{name}</title>\n<style>\n{STYLE.replace('FOOT', f'{VERSION}, valuation year {year}')}</style>\n</head>\n<body>\n<h1>{name}</h1>\n")
        years = "." if k is None else (f"; origin years {first} to {first + k}, development years 0 to {k}. Amounts are whole units of account as in the record; "
                                       "averages and levels are amounts a claim, with two decimals.")
        page.paragraph(f"Reserving report by {VERSION}. Valuation year <b>{year}</b>{years}")
    else:
        page.put(f"{name}\n{VERSION}, valuation year {year}" + ("" if k is None else f", origin years {first} to {first + k}") + "\n")
    if k is not None and first and first + k != year:
        notice = f"The latest payment year, {first + k}, is not the valuation year."
        page.put(f"<p><b>{notice}</b></p>\n" if page.html else notice + "\n")
    page.put(f"<p>Made from one record of {size} bytes.</p>\n" if page.html else f"record of {size} bytes\n")


def key_figures(page, f, first):
    page.start("Key figures")
    page.web('<div class="p">\n')
    provision, ladder = sum(f.provisions), sum(f.remaining)
    ultimate = sum(f.paid) + provision
    rows = [
        ("Provision", [Cell(provision), Cell(ladder), Cell(provision - ladder), Cell(sum(f.allowances), 2)]),
        ("of it, tail payments", [Cell(sum(f.tails)), None, None, Cell(sum(f.tail_allowances), 2)]),
        ("ULAE reserve", [Cell(f.reserve), None, None, Cell(sum(f.margins), 2)]),
        ("Both together", [Cell(provision + f.reserve), None, None, Cell(sum(f.allowances) + sum(f.margins), 2)]),
        ("Paid to date", [Cell(sum(f.paid)), Cell(sum(f.paid))]),
        ("Ultimate", [Cell(ultimate), Cell(sum(f.ladder)), Cell(ultimate - sum(f.ladder)), Cell(sum(f.allowances), 2)]),
        ("ULAE ratio, plain", [Cell(f.plain, 4, "%")]),
        ("ULAE ratio, used", [Cell(f.ratio, 4, "%")]),
    ]
    page.table("Totals of all origin years", ["amount", "separation", "chain ladder", "difference", "proved to be within"], *zip(*rows), key=True)
    page.plot("Provision by origin year", "For each origin year a dark bar, the provision by separation, and a light bar, that of the chain ladder. The figures are in "
              "the table of provisions.", 1, 0, "", [(first + i, [("a", f.provisions[i]), ("b", f.remaining[i])]) for i in range(f.k + 1)],
              [("a", "separation"), ("b", "chain ladder")])
    page.web("</div>\n")
    page.paragraph("<b>Proved to be within:</b> for every record it accepts, the engine is proved to give the amount within this distance of the exact solution of "
                   "Taylor's equations carried on without any rounding. This is about the arithmetic; it does not say how well the past foretells the future. "
                   "<b>Difference:</b> separation less chain ladder.")
    page.end()


def provisions(page, f, first):
    page.start("Provisions by origin year")
    page.paragraph("<b>Provision:</b> what is still to be paid, the sum of the completed payments and of the tail payment. <b>Tail payment:</b> what is paid after the "
                   "last development year. The chain ladder has none. <b>Not reported:</b> the part of the ultimate that is not reported yet. <b>ULAE reserve:</b> by the "
                   "New York method.")
    columns = [("provision", f.provisions, 0), ("chain ladder provision", f.remaining, 0),
               ("difference", [p - r for p, r in zip(f.provisions, f.remaining)], 0), ("provision proved within", f.allowances, 2),
               ("of it, tail payments", f.tails, 0), ("paid", f.paid, 0), ("ultimate", f.ultimates, 0), ("chain ladder ultimate", f.ladder, 0),
               ("not reported", f.unreported, 0), ("ULAE reserve", f.reserves, 0), ("ULAE reserve proved within", f.margins, 2)]
    page.table("Provisions, both methods", ["origin year"] + [name for name, _, _ in columns], [first + i for i in range(f.k + 1)],
               beside(*(cells(values, d) for _, values, d in columns)), ("total", [Cell(sum(values), d) for _, values, d in columns]))
    page.end()


def shares_and_levels(page, f, first):
    k = f.k
    page.start("Shares and levels")
    page.paragraph("<b>Share:</b> the part of an origin year's payments that falls into a development year; the shares sum to 1. <b>Level:</b> what a whole claim costs at "
                   "the prices of one payment year. A future level is the latest one raised by its index. <b>Expected payments:</b> completed and tail payments by "
                   "payment year, a tail payment in the year after the last development year; they add up to the total provision.")
    running = list(itertools.accumulate(f.shares))
    page.web('<div class="p">\n')
    page.table("Shares and running shares", ["development year", "share", "running share"], range(k + 1), beside(cells(f.shares, 9), cells(running, 9)),
               ("total", [Cell(sum(f.shares), 9)]))
    page.plot("Shares by development year", "For each development year a dark bar, its share, and a light bar, the running share. The figures are in the table of shares.",
              S // 100, 9, "percent", [(j, [("a", f.shares[j]), ("b", running[j])]) for j in range(k + 1)], [("a", "share"), ("b", "running share")])
    page.web('</div>\n<div class="p">\n')
    levels = f.levels + f.future
    changes = [None] + [Cell(after - before, 2) for before, after in zip(levels, levels[1:])]
    page.table("Levels up to the latest year", ["payment year", "level", "change on the year before"], [first + h for h in range(k + 1)],
               beside(cells(f.levels, 2), changes[:k + 1]))
    page.table("Future levels and expected payments", ["payment year", "index", "level", "change on the year before", "expected payments"],
               [first + k + 1 + t for t in range(k + 1)], beside(cells(f.e, 6), cells(f.future, 2), changes[k + 1:], cells(f.expected)),
               ("total", [None, None, None, Cell(sum(f.expected))]))
    page.plot("Levels by payment year", "A bar for each payment year: dark for the levels found, light for the future levels. The figures are in the tables of levels.", 100, 2,
              "a claim", [(first + h, [("a" if h <= k else "b", level)]) for h, level in enumerate(levels)], [("a", "found"), ("b", "future")])
    page.web("</div>\n")
    page.end()


def average_mark(average, paid, largest):
    if average == 0 and paid != 0:
        return "z"
    step = 6 * abs(average) // (largest + 1)
    if average < 0:
        return f"n{max(1, step)}"
    return f"s{step}" if step else ""


def gap_mark(gap, fitted):
    step = sum(100 * abs(gap) > t * fitted for t in (5, 10, 25, 50))
    return f"{'h' if gap > 0 else 'l'}{step}" if step else ""


def column_sums(rows, count):
    return [sum(row[j] for row in rows if j < len(row)) for j in range(count)]


def averages_and_fit(page, f, first):
    k, labels = f.k, [first + i for i in range(f.k + 1)]
    page.start("Averages and fit")
    page.paragraph("<b>Average:</b> what was paid in a development year for each claim of the origin year, to the nearest hundredth, halves to the even one; darker where it is "
                   "larger. <b>Fitted:</b> share times level. Blue is above the fitted value, orange below it; the four shades begin at more than 5, 10, 25 and 50 "
                   "percent of the fitted value. Columns and diagonals fit by the method, so look for rows and corners of one colour: there the separation does not "
                   "describe the payments well. Averages below zero are shaded orange; a payment that is not zero but whose average is 0.00 has a frame.")
    largest = max(abs(s) for row in f.averages for s in row)
    page.table("Averages, by origin and development year", ["origin year", *range(k + 1)], labels,
               [[Cell(s, 2, average_mark(s, p, largest)) for s, p in zip(*rows)] for rows in zip(f.averages, f.P)],
               ("total", cells(column_sums(f.averages, k + 1), 2)))
    everything, sizes = sum(map(sum, f.averages)), sum(abs(gap) for row in f.gaps for gap in row)
    lost = sum(s == 0 and p != 0 for rows in zip(f.averages, f.P) for s, p in zip(*rows))
    warning = f"Payments that are not zero and have an average of 0.00: {lost}.", "The exposures are too large for the amounts, which should be given in a smaller unit."
    if page.html:
        page.paragraph(f"All averages add up to {numeral(everything, 2, *GAPS)} a claim, the sizes of observed less fitted to <b>{numeral(sizes, 2, *GAPS)}</b>.")
        if lost:
            page.paragraph(f"<b>{warning[0]} {warning[1]}</b>")
    else:
        page.put(f"\nAll averages add up to {fixed(everything, 2)} a claim, the sizes of observed less fitted to {fixed(sizes, 2)}.\n")
        if lost:
            page.put(warning[0] + "\n" + warning[1] + "\n")
    sums = [sum(row) for row in f.gaps]
    page.table("Observed less fitted, by origin and development year", ["origin year", *range(k + 1), "sum"], labels,
               [[Cell(gap, 2, gap_mark(gap, fit)) for gap, fit in zip(f.gaps[i], f.fitted[i])] + [None] * i + [Cell(sums[i], 2)] for i in range(k + 1)],
               ("sum", cells(column_sums(f.gaps, k + 1) + [sum(sums)], 2)))
    page.end()


def payments(page, f, first):
    k = f.k
    page.start("Payments, paid and completed")
    page.paragraph("Shaded: completed and tail payments, still to be made; their sum is the origin year's provision. Unshaded: paid, as given.")
    page.table("Payments, by origin and development year", ["origin year", *range(k + 1), "tail", "ultimate"], [first + i for i in range(k + 1)],
               [cells(f.P[i]) + cells(f.payments[i], 0, "f") + [Cell(f.tails[i], 0, "f"), Cell(f.ultimates[i])] for i in range(k + 1)],
               ("total", [None] * (k + 1) + cells([sum(f.tails), sum(f.ultimates)])))
    page.end()


def expense(page, f):
    page.start("ULAE reserve")
    page.paragraph("The New York method takes a ratio of unallocated expenses to payments and applies it, by the weight, to what is not reported and, by the rest of the weight, to "
                   "the provision. " + ("From valuation year 2027 the ratio is corrected for growth; earlier valuations use the plain one." if f.growth else
                                        "The plain ratio is used; from valuation year 2027 on it is corrected for growth."))
    rows = [("ULAE paid, all payment years", Cell(sum(f.U))), ("Paid, all payment years", Cell(sum(f.paid))),
            ("Ratio, plain: the first by the second", Cell(f.plain, 4, "%"))]
    if f.growth:
        reported, paid, divisor = f.growth
        rows += [("Reported in the latest year, at ultimate cost", Cell(reported)), ("Paid in the latest year", Cell(paid)), ("Divisor for growth", Cell(divisor, 6)),
                 ("Ratio, corrected: plain by divisor, used", Cell(f.ratio, 4, "%"))]
    page.table("The ratio", ["figure", "value"], [label for label, _ in rows], [[cell] for _, cell in rows])
    page.end()


def chain_ladder(page, f, first):
    k = f.k
    page.start("Chain ladder")
    page.paragraph("Cumulative payments. Unshaded: paid up to the development year. Shaded: completed, each the one before it times the factor in the last row under that one, "
                   "rounded down. The last column is the chain ladder's ultimate. The chain ladder is proved to follow its rule, roundings included; no allowance is "
                   "stated for it.")
    page.table("Cumulatives, by origin and development year", ["origin year", *range(k + 1)], [first + i for i in range(k + 1)],
               [cells(f.cumulatives[i]) + cells(f.completed[i], 0, "f") for i in range(k + 1)], ("factor", cells(f.factors, 6)))
    page.end()


def inputs(page, year, given, k, first):
    """given: the record's fields by their names."""
    P = model.by_row(k, given["P"])
    years = [first + i for i in range(k + 1)]

    def column(caption, heads, labels, values, d, total=True):
        page.table(caption, heads, labels, [[Cell(value, d)] for value in values], ("total", [Cell(sum(values), d)]) if total else None)

    page.start("Inputs as given")
    page.web('<div class="p">\n')
    column("Exposures", ["origin year", "claims"], years, given["n"], 0)
    column("Reporting shares", ["development year", "share"], range(k + 1), given["b"], 6)
    column("ULAE paid", ["payment year", "ULAE"], years, given["U"], 0)
    column("Indices", ["future year", "index"], [first + k + 1 + t for t in range(k + 1)], given["e"], 6, False)
    page.table("Single figures", ["figure", "value"], ["Valuation year", "Reporting weight", "Still to be paid for the first origin year after the last development year"],
               [[Cell(year, 0, "year")], [Cell(given["w"][0], 6)], [Cell(given["a"][0])]])
    page.web("</div>\n")
    page.table("Paid increments, by origin and development year", ["origin year", *range(k + 1), "total"], years,
               [cells(P[i]) + [None] * i + [Cell(sum(P[i]))] for i in range(k + 1)], ("total", cells(column_sums(P, k + 1) + [sum(map(sum, P))])))
    page.end()


def line_of_inflation(text):
    """The first line of inflation of a text as it is typed, up to its comment; nothing where there is none."""
    for line in text.removeprefix(texts.MARK).split(b"\n"):
        typed = texts.content(line)
        if texts.cells(typed)[0] == b"inflation":
            return typed
    return b""


# of each shape of inflation what its indices are made from, with its numbers in their order
MADE_FROM = {
    "flat": "one flat rate of inflation, {}.",
    "fading": "a rate of inflation of {} that moves halfway each year toward a long-run rate of {}.",
    "shock": "a rate of inflation of {0} in future year {2} and of {1} in the others.",
}


def rates_said(line, e, first):
    """The two sentences about a line of inflation whose rates make just these indices; None of any other line. The year of a shock is called as in the table of indices."""
    label, words = texts.cells(texts.content(line))
    if label != b"inflation" or texts.inflation_problem(words, len(e)) or inflation.every_index(*texts.call(words), len(e)) != e:
        return None
    shape = words[0].decode()
    count = 1 + inflation.SHAPES[shape]
    # rates as they are typed
    made_from = MADE_FROM[shape].format(*(rate.decode() for rate in words[1:count]), *(first + len(e) - 1 + int(year) for year in words[count:]))
    return f"The indices are made from {made_from}", "Each is the whole number nearest to the path in millionths, a half going up."


def rates(page, line, e, first):
    """The section of a line of inflation, where its rates make the record's indices."""
    said = rates_said(line, e, first)
    if said:
        page.start("Inflation")
        page.put(f"<p>{' '.join(said)}</p>\n" if page.html else "\n" + "\n".join(said) + "\n")
        page.end()


PROVED = [
    "1. Every figure on this page is proved, for every record that can be accepted and not for tried ones only, to be what the rules define from the record; docs/PROVED.md of the "
    "package names each statement, what it rests on and what is not covered.",
    "2. For every accepted record Taylor's equations are proved to have an exact solution; the printed shares sum to 1 exactly, and the share of development year j is less than "
    "{} - j billionths from the exact one.",
    "3. Every completed payment, tail payment, provision, ULAE reserve and total is proved to be within its allowance of that exact solution carried on without rounding, from the "
    "averages and the ULAE ratio as printed.",
    "4. Averages go to the nearest hundredth, halves to the even one, and every later step drops its fraction (57.99 becomes 57), so that amounts mostly come out a little low; how "
    "far from the exact ones at most, the allowance says.",
    "5. Nothing here is a range of outcomes: how well past payments foretell future ones, and whether exposures, indices and reporting shares are right, is for the actuary to "
    "judge.",
]


def proved(page, f):
    page.start("What is proved, and how figures are rounded")
    for text in PROVED:
        if page.html:
            page.paragraph(text.format(f.k + 1))
        else:
            # the lines are broken as if the number of years had two digits
            lines = textwrap.wrap(text.format("NN"), 120, break_on_hyphens=False)
            page.put("\n" + "\n".join(lines).replace("NN", str(f.k + 1)) + "\n")
    rows = [("Origin years", 16, f.k + 1, 0), ("Claims of an origin year", 10**6, max(f.n), 0), ("Size of a paid increment", 10**10, max(abs(p) for row in f.P for p in row), 0),
            ("Cumulative payment, completed ones too", 10**11, max(c for rows in (f.cumulatives, f.completed) for row in rows for c in row), 0),
            ("All averages together, a claim", 10**9, sum(map(sum, f.averages)), 2), ("Level, a claim", 10**9, max(f.levels), 2), ("Index", 5 * 10**6, max(f.e), 6),
            ("Ultimate of an origin year", 10**12, max(f.ultimates), 0), ("Development factor", 50 * 10**6, max(f.factors), 6)]
    page.table("Limits of the package", ["limit", "largest accepted", "largest here"], [label for label, *_ in rows], [cells([most, here], d) for _, most, here, d in rows])
    page.end()


def record_section(page, record):
    digits = record.hex()
    page.start("The record")
    if page.html:
        page.paragraph(f"All inputs but the valuation year, title, first year and any rates of inflation are these {len(record)} bytes, in hexadecimal; the report can be made again from them.")
        page.paragraph(f"<code>{digits}</code>")
    else:
        page.put("".join(digits[place:place + 64] + "\n" for place in range(0, len(digits), 64)))
    page.end()


def page(year, record, html=False, title=b"", first=0, line=b""):
    """The page that report, or report_html, writes of a record that the engine accepts in a valuation year, given with a line of inflation or none, as text of one
    byte a character."""
    f, made = Figures(year, record), Page(html)
    opening(made, year, title, first, f.k, len(record))
    key_figures(made, f, first)
    provisions(made, f, first)
    shares_and_levels(made, f, first)
    averages_and_fit(made, f, first)
    payments(made, f, first)
    expense(made, f)
    chain_ladder(made, f, first)
    inputs(made, year, model.lists(model.read(record, model.field_count(f.k))), f.k, first)
    rates(made, line, f.e, first)
    proved(made, f)
    record_section(made, record)
    made.web("</body>\n</html>\n")
    return "".join(made.parts)


# of each question its words as it is put, what is not so where the answer is no, and where to look: the design's, but for what is not so of 4 and 12 and where to
# look of 8, 10, 17 and 18. Those of 3 are not in the design: the list of a report is never too short.
QUESTIONS = {
    1: ("Is there a record, and is k at least 1?",
        "Nothing arrived, or the first four bits are zero.",
        "Make a record with pack first."),
    2: ("Has the record just the length that k calls for, its filling bits zero?",
        "The record is shorter or longer than its k calls for, or bits after its last field are set.",
        "The file may be cut, or be of an older layout."),
    3: ("Has the lent list room for all results?",
        "The lent list is too short.",
        "Lend a longer list."),
    4: ("Is every field in its range?",
        "This field is below or above what it may be, or it is a zero with a minus sign.",
        "A zero paid amount with a minus sign is out of range too."),
    5: ("Do the reporting shares sum to 1?",
        "They sum to another number.",
        "Shares are given in millionths."),
    6: ("Is every cumulative payment from 0 to 100 000 000 000?",
        "What was paid up to there is below zero or too large.",
        "A recovery larger than all payments before it, a misplaced sign, or amounts in too small a unit."),
    7: ("Does every column and every diagonal of averages add up to at least 0, and do all to at most 10 000 000.00?",
        "This column, this diagonal, or the whole triangle adds up to a number outside.",
        "Recoveries above payments; or exposures in a larger unit than claims."),
    8: ("Is T_h less v_h at least 0.01 for every development year h from 1 to k?",
        "Beside this development year h the separation finds nothing left: of all averages in development years up to it, without the h earliest payment years, nothing above zero remains once its own column is taken off.",
        "It is proved that this is a fact about the triangle of averages, rounded to hundredths, and not about the method: Taylor's equations have no exact solution in which every running share before the last, and every sum of levels from a payment year after the first to the latest, is above zero. Look first whether the latest payment year is missing or was entered as zeros, and whether averages are lost in rounding."),
    9: ("Is every running share at least a billionth?",
        "The shares up to this development year together round to nothing.",
        "Beside later ones the averages of the first development year are very small, those of the first origin year aside. Begin at a later development year."),
    10: ("Is every level at most 10 000 000.00?",
        "The level of this payment year is too large.",
        "Large payments for the claims of this payment year, or a small running share: look at the exposures, and whether almost everything is paid late."),
    11: ("Is every ultimate at most 1 000 000 000 000?",
        "It is larger.",
        "Indices are cumulative: each is against the latest year, not the year before."),
    12: ("Are the payments at least 1 in total, and the ULAE totals at most that?",
        "ULAE paid is more than the payments.",
        "Units of the two may differ."),
    13: ("Has the chain ladder something to develop from in every year, and is no factor above 50?",
        "Over the origin years that have the next development year, the cumulatives at this one add up to nothing, or those at the next are more than 50 times as large.",
        "A development year without payments, or with very small ones. Take two years together, or begin a year later."),
    14: ("Is every completed cumulative at most 100 000 000 000?",
        "The chain ladder's cumulative there is larger.",
        "A large factor, or large payments."),
    15: ("Is the paid total of the latest payment year at least 1?",
        "It is less, and the growth of the book cannot be measured.",
        "Recoveries in the latest year."),
    16: ("Is the divisor above 0?",
        "It is 0: the weight is 1, and what is reported in the latest year, rounded down, is less than a millionth of what is paid in it.",
        "The reporting shares, and a weight of 1."),
    17: ("Is the corrected ratio at most 1?",
        "It is larger.",
        "The reporting shares, the weight, and ULAE totals near the payments."),
    18: ("Is the average amount after the last year at most 10 000 000.00?",
        "It is larger.",
        "The amount is for the first origin year alone."),
    19: ("Is every average tail amount at most 50 000 000.00?",
        "Raised by the indices it is larger.",
        "The first index may be very small."),
}


def found(paid_rows, claims):
    """Of increments by row and exposures: the averages by row, the totals of their columns and of their diagonals, and T_0 to T_k."""
    k = len(paid_rows) - 1
    years = range(k + 1)
    cells_ = [(i, j) for i in years for j in range(k + 1 - i)]
    s = [[model.average(paid, claims[i]) for paid in row] for i, row in enumerate(paid_rows)]
    columns = [sum(s[i][j] for i, j in cells_ if j == column) for column in years]
    diagonals = [sum(s[i][j] for i, j in cells_ if i + j == diagonal) for diagonal in years]
    T = [sum(s[i][j] for i, j in cells_ if j <= h and i + j >= h) for h in years]
    return s, columns, diagonals, T


def bit_fields(record):
    """The fields of a record of the right length in their order, no question asked: the row's name, the place in the row, the number, whether it is a zero with a
    minus sign, and the least and the largest that the number may be."""
    text, at = "".join(format(byte, "08b") for byte in record), 0
    for name, count, sign, size, least, most in model.rows(record[0] >> 4):
        for place in range(count):
            negative = bool(sign) and text[at] == "1"
            number = int(text[at + sign:at + sign + size], 2)
            at += sign + size
            yield name, place, -number if negative else number, negative and number == 0, -most if sign else least, most


def field_refusal(record, first):
    """Of a record that question 4 refuses: what the first field out of its range is, and the figures."""
    k = record[0] >> 4
    places = [(i, j) for i in range(k + 1) for j in range(k + 1 - i)]
    name, place, number, _, least, most = next(field for field in bit_fields(record) if field[3] or not field[4] <= field[2] <= field[5])
    words = {
        "n": f"exposure of origin year {first + place}",
        "P": "paid increment of origin year {}, development year {}".format(first + places[place][0], places[place][1]),
        "e": f"index e_{place + 1}",
        "b": f"reporting share of development year {place}",
        "w": "reporting weight",
        "U": f"ULAE total of payment year {first + place}",
        "a": "amount still to be paid for the first origin year",
    }
    decimals = 6 if name in ("e", "b", "w") else 0
    return words[name], [("The field", Cell(number, decimals)), ("The least it may be", Cell(least, decimals)), ("The largest it may be", Cell(most, decimals))]


def why(number, record, first):
    """Of a record that this question refuses: the place where the answer is no, None where there is none, and the figures there, each a label and a cell."""
    def origin(i):
        return f"origin year {first + i}"

    def development(j):
        return f"development year {j}"

    def payment(h):
        return f"payment year {first + h}"

    if number == 1:
        return None, [("Bytes given", Cell(len(record)))]
    k = record[0] >> 4
    years = range(k + 1)
    if number == 2:
        return None, [("Bytes given", Cell(len(record))), ("Bytes due for this k", Cell(model.byte_count(k)))]
    if number == 4:
        return field_refusal(record, first)
    if number == 5:
        return None, [("Sum of the reporting shares", Cell(sum(value for name, _, value, *_ in bit_fields(record) if name == "b"), 6)), ("What it should be", Cell(model.M, 6))]
    given = model.lists(model.read(record, model.field_count(k)))
    n, e, b, w, U, a = given["n"], given["e"], given["b"], given["w"][0], given["U"], given["a"][0]
    P = model.by_row(k, given["P"])
    C = [list(itertools.accumulate(row)) for row in P]
    if number == 6:
        i, j = next((i, j) for i in years for j in range(k + 1 - i) if not 0 <= C[i][j] <= 10**11)
        return f"{origin(i)}, {development(j)}", [("Cumulative payment", Cell(C[i][j]))]
    if number == 13:
        for h in range(k):
            here, after = (sum(C[i][j] for i in range(k - h)) for j in (h, h + 1))
            if here < 1 or model.M * after // here > 50 * model.M:
                factor = [("Development factor", Cell(model.M * after // here, 6))] if here > 0 else []
                return development(h), [("Sum at this development year, over origin years that have the next", Cell(here)), ("Sum at the next, over the same origin years", Cell(after))] + factor
    s, v, d, T = found(P, n)
    if number == 7:
        below = [(development(j), v[j]) for j in years if v[j] < 0] + [(payment(h), d[h]) for h in years if d[h] < 0]
        place, total = below[0] if below else (None, sum(map(sum, s)))
        assert total < 0 or total > S
        return place, [("Sum of averages", Cell(total, 2))]
    if number == 8:
        h = next(h for h in years if h > 0 and T[h] - v[h] < 1)
        return development(h), [("T_h: averages in columns 0 to h, without the h earliest payment years", Cell(T[h], 2)), ("v_h: averages in column h", Cell(v[h], 2)),
                                ("T_h less v_h", Cell(T[h] - v[h], 2))]
    A = [S]
    for h in range(k, 0, -1):
        A.insert(0, A[0] * (T[h] - v[h]) // T[h])
    if number == 9:
        h = A.index(0)
        return development(h), [("Running share", Cell(A[h], 9))]
    levels = [d[h] * S // A[h] for h in years]
    if number == 10:
        h = next(h for h in years if levels[h] > S)
        return payment(h), [("Diagonal, a claim", Cell(d[h], 2)), ("Running share", Cell(A[h], 9)), ("Level, a claim", Cell(levels[h], 2))]
    # e[t - 1] is e_t
    t = [model.average(a, n[0])]
    if number == 18:
        assert t[0] > S
        return origin(0), [("Still to be paid after the last development year", Cell(a)), ("Claims", Cell(n[0])), ("Average, a claim", Cell(t[0], 2))]
    t = [t[0] * e[i] // e[0] for i in years]
    if number == 19:
        i = next(i for i in years if t[i] > 5 * S)
        return origin(i), [("Average tail amount, a claim", Cell(t[i], 2)), ("Index of its tail payment", Cell(e[i], 6)), ("Index of the first future year", Cell(e[0], 6))]
    r = [A[0]] + [A[h] - A[h - 1] for h in years if h > 0]
    R = []
    for i in years:
        units = [r[j] * (d[k] * e[i + j - k - 1] // model.M) // S for j in range(k + 1 - i, k + 1)]
        R.append(sum(n[i] * unit // 100 for unit in units) + n[i] * t[i] // 100)
    X = [C[i][-1] + R[i] for i in years]
    if number == 11:
        i = next(i for i in years if X[i] > 10**12)
        return origin(i), [("Paid", Cell(C[i][-1])), ("Provision", Cell(R[i])), ("Ultimate", Cell(X[i]))]
    paid = sum(given["P"])
    if number == 12:
        assert paid < 1 or sum(U) > paid
        return None, [("Payments in total", Cell(paid)), ("ULAE paid in total", Cell(sum(U)))]
    if number == 14:
        m = model.development_factors(C)
        for i in years:
            for j in range(k + 1 - i, k + 1):
                C[i].append(C[i][j - 1] * m[j - 1] // model.M)
                if C[i][j] > 10**11:
                    return f"{origin(i)}, {development(j)}", [("Cumulative before it", Cell(C[i][j - 1])), ("Development factor", Cell(m[j - 1], 6)),
                                                              ("Cumulative", Cell(C[i][j]))]
    Y = sum(P[i][k - i] for i in years)
    if number == 15:
        assert Y < 1
        return payment(k), [("Y: paid in this payment year", Cell(Y))]
    B = sum(b[j] * X[k - j] for j in years) // model.M
    divisor = model.M - w + w * B // Y
    if number == 16:
        assert divisor == 0
        return None, [("Reporting weight", Cell(w, 6)), ("B: reported in the latest year, at its ultimate cost", Cell(B)), ("Y: paid in the latest payment year", Cell(Y))]
    plain = model.M * sum(U) // paid
    corrected = plain * model.M // divisor
    assert number == 17 and corrected > model.M
    return None, [("Plain ULAE ratio", Cell(plain, 4, "%")), ("Divisor", Cell(divisor, 6)), ("Corrected ULAE ratio", Cell(corrected, 4, "%"))]


# what stands above the table of all years of which question 8 says no, in the lines of the page of text
NOTHING_LEFT = """\
T_h less v_h is the total of the averages in the development years before h, without those of the h earliest payment
years. In an exact solution it is the running share up to the year before h times the sum of the levels without the h
earliest: where it is not above zero, at least one of the two is not. Below is every development year h of which
question 8 says no."""


def nothing_left(page, record):
    """Of a record that question 8 refuses: every year of which it says no, with the figures."""
    k = record[0] >> 4
    given = model.lists(model.read(record, model.field_count(k)))
    _, v, _, T = found(model.by_row(k, given["P"]), given["n"])
    years = [h for h in range(1, k + 1) if T[h] - v[h] < 1]
    page.start("Every development year with nothing left")
    page.put("<p>" + NOTHING_LEFT.replace("\n", " ") + "</p>\n" if page.html else f"\n{NOTHING_LEFT}\n")
    page.table("Development years of which question 8 says no", ["development year", "T_h", "v_h", "T_h less v_h"], years,
               [cells([T[h], v[h], T[h] - v[h]], 2) for h in years])
    page.end()


def refused_page(year, record, html=False, title=b"", first=0, line=b""):
    """The page of a record that the engine refuses in a valuation year, given with a line of inflation or none."""
    number = model.run(year, record, 505)[0]
    asked, said, advice = QUESTIONS[number]
    place, figures = why(number, record, first)
    made = Page(html)
    k = None if number in (1, 2, 4) else record[0] >> 4
    opening(made, year, title, first, k, len(record))
    made.start(f"Refused: question {number}")
    if html:
        at = f" at <b>{place}</b>" if place else ""
        made.paragraph(f"<b>No figures are given for this record.</b> Question {number} was answered no{at}:")
        made.paragraph(f"<b>{asked}</b>")
        made.paragraph(said)
    else:
        at = f" at {place}" if place else ""
        made.put(f"\nNo figures are given for this record. Question {number} was answered no{at}:\n{asked}\n{said}\n")
    made.table("The question's figures", ["figure", "a claim" if number in (7, 8) else "value"], [label for label, _ in figures], [[cell] for _, cell in figures])
    made.put(f"<p>{advice}</p>\n" if html else f"\n{advice}\n")
    made.end()
    if number == 8:
        nothing_left(made, record)
    if number > 5:
        given = model.lists(model.read(record, model.field_count(k)))
        inputs(made, year, given, k, first)
        rates(made, line, given["e"], first)
    made.start("What is proved")
    text = ("Every record is proved to get either all of its figures or the number of the first question, in the order in which they are put, whose answer is no; a refused record "
            "leaves nothing half done. The questions before this one were answered yes.")
    if html:
        made.paragraph(text)
    else:
        made.put("\n" + "\n".join(textwrap.wrap(text, 120, break_on_hyphens=False)) + "\n")
    made.end()
    record_section(made, record)
    made.web("</body>\n</html>\n")
    return "".join(made.parts)


def csv(year, record):
    """The lines that csv writes of a record that the engine accepts in a valuation year: section, origin year, development or payment year, value, unit. The
    result list comes first, and then what it does not have."""
    k, results, _, plain, growth = worked(year, record)
    (averages, shares, levels, future, payments, provisions, provision_total, unreported, reserves, reserve_total, ratio, factors,
     completed, tails) = sections(k, results)
    claim, money = "hundredths a claim", "currency units"
    lines = [("section", "origin year", "development or payment year", "value", "unit")]

    def put(name, unit, entries):
        lines.extend((name, origin, year, value, unit) for origin, year, value in entries)

    def past(rows):
        return ((i, k + 1 - i + place, value) for i, row in enumerate(rows) for place, value in enumerate(row))

    put("average", claim, ((i, j, value) for i, row in enumerate(averages) for j, value in enumerate(row)))
    put("share", "billionths", (("", j, value) for j, value in enumerate(shares)))
    put("level", claim, (("", h, value) for h, value in enumerate(levels)))
    put("future level", claim, (("", k + t, value) for t, value in enumerate(future, 1)))
    put("payment", money, past(payments))
    put("provision", money, ((i, "", value) for i, value in enumerate(provisions)))
    put("total provision", money, [("", "", provision_total)])
    put("not reported", money, ((i, "", value) for i, value in enumerate(unreported)))
    put("ulae reserve", money, ((i, "", value) for i, value in enumerate(reserves)))
    put("total ulae reserve", money, [("", "", reserve_total)])
    put("ulae ratio", "millionths", [("", "", ratio)])
    put("development factor", "millionths", (("", h, value) for h, value in enumerate(factors)))
    put("completed cumulative", money, past(completed))
    put("tail payment", money, ((i, "", value) for i, value in enumerate(tails)))
    assert [value for *_, value, _ in lines[1:]] == results
    put("valuation year", "year", [("", "", year)])
    put("plain ulae ratio", "millionths", [("", "", plain)])
    if growth:
        reported, paid, divisor = growth
        put("reported in the latest year", money, [("", "", reported)])
        put("paid in the latest year", money, [("", "", paid)])
        put("divisor of the ulae ratio", "millionths", [("", "", divisor)])
        put("corrected ulae ratio", "millionths", [("", "", ratio)])
    return "".join(",".join(str(cell) for cell in line) + "\n" for line in lines)


def development_refusal(record):
    """The line that tells why question 13 refuses a record that has passed 1 to 6, or None where it does not: the first development year with nothing to develop
    from, or with a factor above 50."""
    k = record[0] >> 4
    given = model.lists(model.read(record, model.field_count(k)))
    cumulatives = [list(itertools.accumulate(row)) for row in model.by_row(k, given["P"])]
    assert all(0 <= c <= 10**11 for row in cumulatives for c in row)
    for h in range(k):
        base, developed = (sum(cumulatives[i][j] for i in range(k - h)) for j in (h, h + 1))
        if base < 1:
            return (f"refused 13: the chain ladder has nothing to develop from: up to development year {h} nothing is paid for the origin years that have a "
                    "later one\n")
        if model.M * developed // base > 50 * model.M:
            return f"refused 13: the chain ladder's development factor from development year {h} to {h + 1} is above 50\n"
    return None


def totals_refusal(record):
    """The line that tells why question 7 refuses a record: the first column, else the first diagonal, that adds up to less than 0, else the whole."""
    k = record[0] >> 4
    given = model.lists(model.read(record, model.field_count(k)))
    _, columns, diagonals, _ = found(model.by_row(k, given["P"]), given["n"])
    for kind, totals in (("development", columns), ("payment", diagonals)):
        for year, total in enumerate(totals):
            if total < 0:
                return f"refused 7: the averages of {kind} year {year} add up to less than 0\n"
    return "refused 7: the averages add up to more than 1,000,000,000 hundredths\n"


def refusal(record):
    """The line that report writes of a record that question 13 or 7 refuses in every year."""
    numbers = {model.run(year, record, model.result_count(record[0] >> 4))[0] for year in (2026, 2027)}
    assert numbers in ({13}, {7})
    return development_refusal(record) if numbers == {13} else totals_refusal(record)


def sheet(fields):
    """The text that unpack writes of a record's fields: a label and its numbers a line, the increments of each origin year on a line of their own."""
    k, given = fields[0], model.lists(fields)
    lines = [("k", given["k"]), ("exposures", given["n"])]
    lines += [("paid", row) for row in model.by_row(k, given["P"])]
    lines += [("indices", given["e"]), ("reporting", given["b"]), ("weight", given["w"]), ("ulae", given["U"]), ("tail", given["a"])]
    return "".join(" ".join([label] + [str(number) for number in numbers]) + "\n" for label, numbers in lines)
