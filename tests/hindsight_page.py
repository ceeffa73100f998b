"""The pages of a hindsight run, of text and of HTML, and its report as comma-separated values, in plain Python.

Written from the definitions of a line of settings, of the page, of its tables and its plot and of the report's lines, and not from the Rattle code. The tables and
the plot are those of page.py; the figures come from hindsight.py. hindsights holds hindsight_report, hindsight_report_html and hindsight_report_csv to it.
"""
import re

import hindsight
import history_page
import page

# an index is in millionths
INDEX_DECIMALS = 6

# as many entries as the longest report has
ROOM = hindsight.report_count(hindsight.K_MOST, hindsight.SETTINGS_MOST)

SETTING = (
    "<b>Setting:</b> a one-year index that is tried on the past. The latest payment years are dropped one after another, down to a triangle of two years. Each time "
    "what is kept is fitted, and the payments of the next payment year are forecast with the index, where the fit has both the origin and the development year. "
    "<b>Gap:</b> payment minus forecast. The best setting has the smallest sum of absolute gaps, the first on a tie.")
STEP = (
    "<b>Step:</b> one of these triangles and the payment year that it forecasts. A triangle that does not pass questions 7 to 10 is marked with the number of the "
    "first that says no, and is left out for all settings alike.")
GAPS = (
    "Above zero more was paid than forecast, below zero less. A payment year is a diagonal; that of a marked step is blank. Nothing is forecast in the first origin "
    "year and in development year 0.")
NONE_FITTED = "No step could be fitted, so that no setting is better than another."

# what is not so where a question refuses a call
REFUSED = {
    1: "there is no record, or k is not from 1 to 15",
    2: "a length is not what k calls for, or a filling bit is not zero",
    29: "there are no settings or more than 8, one is not from 1 to 5,000,000, or k is 1",
    4: "a field is out of its range",
    5: "the reporting shares do not sum to 1,000,000",
    6: "a given cumulative C_ij is below 0 or above 10^11",
}
NO_RECORD = "nothing arrived: no record on standard input"
IS_TEXT = ("this is a text, not a record: make a record of it with pack first, and put the valuation year, the first year, the title and a line of inflation "
           "before it")


class Run:
    """A hindsight run as it is shown: k, the settings and the sum of each, the marks and the gaps by step, and the place of the best setting. Step h is the triangle
    of the years 0 to h and forecasts payment year h + 1."""

    def __init__(self, k, settings, entries):
        self.k, self.settings = k, settings
        found, self.best = hindsight.parts(k, len(settings), entries)
        self.sums = [total for _, total in found]
        self.steps = [dict(zip(hindsight.steps(k), of_setting)) for of_setting, _ in found]
        self.marks = {h: mark for h, (mark, _) in self.steps[0].items()}
        # all settings have the same marks
        assert all(self.marks == {h: mark for h, (mark, _) in of_setting.items()} for of_setting in self.steps)

    def fitted(self):
        """Whether a step is fitted at all."""
        return 0 in self.marks.values()

    def gap(self, a, h, i):
        """That of origin year i, from 1 to h, in step h with setting a."""
        return self.steps[a][h][1][i - 1]

    def step_sum(self, a, h):
        return sum(map(abs, self.steps[a][h][1]))


def words_of(line):
    """The words of a line of settings: what stands between spaces, tabs, commas and semicolons."""
    return [word for word in re.split(rb"[ \t,;]", line) if word]


def is_text(given):
    """At least one byte, and none that a text does not have; some programs put a mark before a text."""
    return given != b"" and re.fullmatch(rb"[\t\n\r -~]*", given.removeprefix(b"\xef\xbb\xbf")) is not None


def taken(line, record):
    """The run of a record with the settings of a line and None, or None and what is said."""
    if is_text(record):
        return None, IS_TEXT
    words = words_of(line)
    for place, word in enumerate(words, 1):
        # digits alone: of bytes, isdigit takes no others
        if not word.isdigit():
            return None, f"settings: word {place} is no whole number of millionths (1000000 is an index of 1)"
    settings = [int(word) for word in words]
    number, entries = hindsight.hindsight(record, settings, ROOM)
    if number:
        return None, f"refused {number}: {REFUSED[number]}"
    return Run(record[0] >> 4, settings, entries), None


def opening(made, run, title, first):
    name = page.escaped(title or b"Hindsight run", made.html)
    years, tried = f"{first} to {first + run.k}", f"settings tried: {len(run.settings)}"
    if made.html:
        style = page.STYLE.replace("FOOT", f"{page.VERSION}, hindsight run of the origin years from {first}")
        made.put('<!DOCTYPE html>\n<html lang="en">\n<head>\n<meta charset="utf-8">\n<meta name="viewport" content="width=device-width,initial-scale=1">\n')
        made.put(f"<title>{name}</title>\n<style>\n{style}</style>\n</head>\n<body>\n<h1>{name}</h1>\n")
        made.paragraph(f"{page.VERSION}. Hindsight run of the origin years <b>{years}</b>, {tried}. An index of 1 leaves prices as they are.")
    else:
        made.put(f"{name}\n{page.VERSION}, hindsight run of the origin years {years}, {tried}\n")


def best(made, run):
    """The sentence that names the best setting, on both pages."""
    if not run.fitted():
        made.put(f"<p>{NONE_FITTED}</p>\n" if made.html else NONE_FITTED + "\n")
        return
    index, total = run.settings[run.best], run.sums[run.best]
    if made.html:
        index, total = page.numeral(index, INDEX_DECIMALS, *page.GAPS), page.numeral(total, 0, *page.GAPS)
        made.put(f"<p>Best setting: <b>{run.best + 1}</b>, index <b>{index}</b>, with the smallest sum of absolute gaps, {total}.</p>\n")
    else:
        made.put(f"Best setting: {run.best + 1}, index {page.fixed(index, INDEX_DECIMALS)}, with the smallest sum of absolute gaps, {total}.\n")


def settings_section(made, run):
    made.start("Settings")
    made.paragraph(SETTING)
    best(made, run)
    made.web('<div class="p">\n')
    numbers = range(1, len(run.settings) + 1)
    made.table("Settings tried", ["setting", "index", "sum of absolute gaps"], numbers,
               [[page.Cell(index, INDEX_DECIMALS), page.Cell(total)] for index, total in zip(run.settings, run.sums)])
    made.plot("Sum of absolute gaps by setting", "A bar for each setting. The figures are in the table of settings.", 1, 0, "",
              [(number, [("a", total)]) for number, total in zip(numbers, run.sums)], [])
    made.web("</div>\n")
    made.end()


def steps_section(made, run, first):
    """A row for each step: the sums by setting, or the number of one that is marked."""
    made.start("Steps")
    made.paragraph(STEP)
    count, years = len(run.settings), range(1, run.k)
    made.table("Sums of absolute gaps by forecast payment year and setting", ["payment year", *(f"setting {a + 1}" for a in range(count)), "marked by question"],
               [first + h + 1 for h in years],
               [[None] * count + [page.Cell(run.marks[h])] if run.marks[h] else page.cells(run.step_sum(a, h) for a in range(count)) for h in years])
    made.end()


def gaps_section(made, run, first):
    """The gaps of the best setting: of origin year i and development year j that of step i + j - 1."""
    def cell(i, j):
        h = i + j - 1
        return None if j == 0 or h >= run.k or run.marks[h] else page.Cell(run.gap(run.best, h, i))

    made.start("Gaps of the best setting")
    made.paragraph(GAPS)
    years = range(1, run.k)
    made.table("Gaps by origin and development year: payment minus forecast", ["origin year", *range(run.k)], [first + i for i in years],
               [[cell(i, j) for j in range(run.k)] for i in years])
    made.end()


def pages(run, html=False, title=b"", first=0):
    """The page that hindsight_report, or hindsight_report_html, writes of a run, as text of one byte a character."""
    made = page.Page(html)
    opening(made, run, title, first)
    settings_section(made, run)
    steps_section(made, run, first)
    if run.fitted():
        gaps_section(made, run, first)
    numbers = sorted(set(run.marks.values()) - {0})
    if numbers:
        made.start("Marked steps")
        for number in numbers:
            said = f"Refused by question {number}: {history_page.REFUSED[number]}."
            made.put(f"<p>{said}</p>\n" if html else said + "\n")
        made.end()
    made.web("</body>\n</html>\n")
    return "".join(made.parts)


def csv(run, first=0):
    """The lines that hindsight_report_csv writes: section, setting, payment year, origin year, value, unit."""
    lines = [("section", "setting", "payment year", "origin year", "value", "unit")]
    lines += [("index", a, "", "", index, "millionths") for a, index in enumerate(run.settings, 1)]
    for a, of_setting in enumerate(run.steps):
        for h, (mark, gaps) in of_setting.items():
            lines.append(("mark", a + 1, first + h + 1, "", mark, "question"))
            lines += [("gap", a + 1, first + h + 1, first + i, gap, "currency units") for i, gap in enumerate(gaps, 1)]
        lines.append(("sum", a + 1, "", "", run.sums[a], "currency units"))
    lines.append(("best", run.best + 1, "", "", run.best, "place from 0"))
    return "".join(",".join(map(str, line)) + "\n" for line in lines)
