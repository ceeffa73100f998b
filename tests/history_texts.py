"""The texts of histories that must be accepted or refused, with the numbers of each or what is said of it (tests/history_texts).

What is expected comes from sheet.py. Run by itself it writes the folder.
"""
import os

import sheet

HERE = os.path.dirname(os.path.abspath(__file__))
AMOUNT = 10**10

PLAIN = "years 4\nwidth 3\nexposures 100 110 120 130\npaid 6000 3000 1000 500\npaid 6600 3400 1100\npaid 7300 3700\npaid 8100\n"

# Messages word for word, as docs/SHEET.md has them.
SAID = {
    "years 65\n": "refused 27: line 1: number 1 of `years` is `65`, and a whole number from 2 to 64 is due",
    "years 2\nwidth 3\n": "refused 27: line 2: number 1 of `width` is `3`, and a whole number from 2 to 2 is due",
    "years 4\nwidth 3\nexposures 100 0 120 130\n": "refused 28: line 3: number 2 of `exposures` is `0`, and a whole number from 1 to 1000000 is due",
    "years 4\nwidth 3\nexposures 100 110 120 130\npaid 1 2 3\n": "line 4: `paid` takes 4 numbers, and 3 stand there",
}


def history(years, width, amount=lambda i, j: 1000 * (i + 1) // (j + 1)):
    """A history of so many years as text, by an amount for each origin and development year."""
    lines = [f"years {years}", f"width {width}", "exposures " + " ".join(str(100 + i) for i in range(years))]
    lines += ["paid " + " ".join(str(amount(i, j)) for j in range(min(16, years - i))) for i in range(years)]
    return "\n".join(lines) + "\n"


def with_line(number, line, text=PLAIN):
    """A text with another line in this place, counted from 1; without it where the line is None."""
    lines = text.splitlines()
    return "\n".join(lines[:number - 1] + ([] if line is None else [line]) + lines[number:]) + "\n"


def saved(comma, end="\n", width=0, quote=""):
    """The plain history as a spreadsheet saves it, with empty cells up to a width."""
    rows = [[quote + cell + quote for cell in line.split(" ")] for line in PLAIN.splitlines()]
    return "".join(comma.join(row + [""] * (width - len(row))) + end for row in rows)


def spellings():
    """The plain history in other spellings."""
    yield "plain", PLAIN
    yield "commas", saved(",")
    yield "semicolons", saved(";")
    yield "tabs", saved("\t")
    yield "spreadsheet", b"\xef\xbb\xbf" + saved(",", "\r\n", 5).encode()
    yield "quotes", saved(",", quote='"')
    yield "comments", "# a book\n\n" + PLAIN.replace("width 3", '  width 3 # three at a time\n"# a, b",,\n,,;')
    yield "no_line_end", PLAIN[:-1]


def limits():
    """Both sides of each limit."""
    for years in (1, 2, 15, 16, 17, 18, 63, 64):
        yield f"years_{years}", history(years, 2)
    for years in ("0", "65", "-1", "100000000000000000", "00000000000000000064"):
        yield f"years_{years.replace('-', 'minus_').replace('0' * 18, 'zeros_')}_given", with_line(1, "years " + years, history(64, 2))
    for width in (1, 2, 16, 17, -3):
        yield f"width_{width}".replace("-", "minus_"), history(20, width)
    yield "width_above_the_years", history(5, 6)
    yield "width_of_the_years", history(5, 5)
    yield "width_above_the_years_and_an_exposure", with_line(3, "exposures 0 1", history(2, 3))
    yield "width_above_the_years_and_a_count", with_line(3, "exposures 1", history(2, 3))
    for name, exposure in (("least", 1), ("most", 10**6), ("none", 0), ("past", 10**6 + 1), ("below", -1)):
        yield f"exposure_{name}", with_line(3, f"exposures 100 110 {exposure} 130")
    for name, paid in (("most", AMOUNT), ("least", -AMOUNT), ("past", AMOUNT + 1), ("below", -AMOUNT - 1)):
        yield f"amount_{name}", with_line(6, f"paid 7300 {paid}")
    yield "amounts_long", history(64, 16, lambda i, j: (-1)**(i + j) * AMOUNT)


def counts():
    """Rows of another length."""
    seventeen = history(17, 6)
    rows = seventeen.splitlines()
    yield "sixteen_at_most", with_line(4, rows[3] + " 7", seventeen)
    yield "fifteen_of_sixteen", with_line(4, rows[3].rsplit(" ", 1)[0], seventeen)
    yield "second_row_long", with_line(5, rows[4] + " 7", seventeen)
    yield "third_row_as_the_second", with_line(6, rows[4], seventeen)
    yield "last_row_long", with_line(7, "paid 8100 4000")
    yield "exposures_few", with_line(3, "exposures 100 110 120")
    yield "exposures_many", with_line(3, "exposures 100 110 120 130 140")
    yield "two_years", with_line(1, "years 4 5")
    yield "no_width", with_line(2, "width")
    yield "empty_at_the_end", with_line(5, "paid,6600,3400,1100,,")
    yield "empty_before_another", with_line(5, "paid,6600,,1100")


def orders():
    """Lines in another order, left out, or besides."""
    yield "width_first", "width 3\n" + with_line(2, None)
    yield "width_left_out", with_line(2, None)
    yield "exposures_left_out", with_line(3, None)
    yield "figures", "k 1\nexposures 1 1\npaid 60 40\npaid 66\nindices 1 1\nreporting 800000 200000\nweight 0\nulae 6 10\ntail 0\n"
    yield "inflation_after_the_width", with_line(3, "inflation flat 0.03")
    yield "inflation_among_the_rows", with_line(7, "inflation flat 0.03")
    # where figures of k = 4 have their indices
    yield "inflation_after_the_end", PLAIN + "inflation flat 0.03\n"
    yield "label_misspelt", with_line(4, "payd 6000 3000 1000 500")
    yield "label_in_capitals", with_line(1, "Years 4")
    yield "row_too_few", with_line(7, None)
    yield "row_too_many", PLAIN + "paid 9000\n"
    yield "total_after_the_end", PLAIN + "total 1 2\n"
    yield "comment_after_the_end", PLAIN + "# the end\n\n,,\n"
    yield "years_alone", "years 4\n"
    yield "nothing_but_comments", "# a\n\n# b\n"


def numbers():
    """Cells that are no numbers, and which question comes first."""
    for name, word in (("decimal", "3700.5"), ("plus", "+3700"), ("thousands", "3,700"), ("word", "none"), ("long_word", "x" * 30), ("sharp", "37#0")):
        yield f"cell_{name}", with_line(6, f"paid 7300 {word}")
    yield "word_before_the_count", with_line(6, "paid 7300 x 1")
    yield "count_before_the_range", with_line(6, f"paid {AMOUNT + 1} 3700 1")
    yield "label_before_the_word", with_line(6, "payd x")
    yield "first_of_two_out_of_range", with_line(6, f"paid {AMOUNT + 1} {AMOUNT + 2}")
    yield "width_before_an_exposure", with_line(2, "width 17", with_line(3, "exposures 0 0 0 0"))
    yield "leading_zeros", with_line(6, "paid 0007300 -0")


def texts():
    """Each text by its name, and the numbers that it has or what is said of it."""
    for text, said in SAID.items():
        assert sheet.read_history(text.encode())[1] == said.encode(), (text, sheet.read_history(text.encode()))
    made = {}
    for name, text in (*spellings(), *limits(), *counts(), *orders(), *numbers()):
        assert name + ".txt" not in made, name
        given = text if isinstance(text, bytes) else text.encode()
        found, said = sheet.read_history(given)
        made[name + ".txt"] = given
        made.update({name + ".numbers": " ".join(map(str, found)).encode() + b"\n"} if found else {name + ".said": said + b"\n"})
    plain = made["plain.numbers"]
    for name, _ in spellings():
        assert made[name + ".numbers"] == plain, name
    return made


def main():
    folder = os.path.join(HERE, "history_texts")
    os.makedirs(folder, exist_ok=True)
    made = texts()
    for name, data in made.items():
        with open(os.path.join(folder, name), "wb") as file:
            file.write(data)
    for name in sorted(set(os.listdir(folder)) - set(made)):
        print(f"tests/history_texts/{name} is not made here")


if __name__ == "__main__":
    main()
