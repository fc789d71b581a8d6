#!/usr/bin/env python3
"""Writes the session text examples/floor.txt to standard output: a floor plan with numbered joists
and the load that one of them may carry, as the desk unit shows it. Run it as

    python3 examples/floor.py > examples/floor.txt

The text switches the controller on, sets it up for the 96 by 64 glass, sends the plan page by page,
and turns the display on. Shades go from 0, nothing, to 3, full drive.
"""

WIDTH, HEIGHT = 96, 64

# The joist whose figure is shown.
CHOSEN = 4

# 3 by 5 letters for labels, five rows from the top; '#' is a set pixel.
SMALL = {
    "0": "### #.# #.# #.# ###", "1": ".#. ##. .#. .#. ###", "2": "##. ..# .#. #.. ###",
    "3": "##. ..# .#. ..# ##.", "4": "#.# #.# ### ..# ..#", "5": "### #.. ##. ..# ##.",
    "6": ".## #.. ### #.# ###", "I": "### .#. .#. .#. ###", "J": "..# ..# ..# #.# .#.",
    "O": "### #.# #.# #.# ###", "S": ".## #.. .#. ..# ##.", "T": "### .#. .#. .#. .#.",
    "m": "..... ..... ####. #.#.# #.#.#", ".": ". . . . #", ":": ". # . # .", " ": ".. .. .. .. ..",
}

# 5 by 7 letters for the title and the figure.
LARGE = {
    "2": ".###. #...# ....# ...#. ..#.. .#... #####",
    "3": "##### ...#. ..#.. ...#. ....# #...# .###.",
    "F": "##### #.... #.... ####. #.... #.... #....",
    "L": "#.... #.... #.... #.... #.... #.... #####",
    "N": "#...# ##..# #.#.# #..## #...# #...# #...#",
    "O": ".###. #...# #...# #...# #...# #...# .###.",
    "R": "####. #...# #...# ####. #.#.. #..#. #...#",
    "k": "#.... #.... #..#. #.#.. ##... #.#.. #..#.",
    "m": "..... ..... ##.#. #.#.# #.#.# #.#.# #.#.#",
    "/": "....# ....# ...#. ..#.. .#... #.... #....",
    ".": ". . . . . . #", " ": "... ... ... ... ... ... ...",
}


class Panel:
    def __init__(self):
        self.rows = [[0] * WIDTH for _ in range(HEIGHT)]

    def fill(self, left, top, right, bottom, shade):
        for y in range(top, bottom + 1):
            for x in range(left, right + 1):
                self.rows[y][x] = shade

    def frame(self, left, top, right, bottom, shade):
        self.fill(left, top, right, top, shade)
        self.fill(left, bottom, right, bottom, shade)
        self.fill(left, top, left, bottom, shade)
        self.fill(right, top, right, bottom, shade)

    def text(self, font, left, top, words, shade, size=1):
        for letter in words:
            glyph = font[letter].split()
            for y, row in enumerate(glyph):
                for x, mark in enumerate(row):
                    if mark == "#":
                        at = left + x * size, top + y * size
                        self.fill(*at, at[0] + size - 1, at[1] + size - 1, shade)
            left += (len(glyph[0]) + 1) * size


def plan(panel):
    """The floor: walls, a stair opening, six joists with their numbers, and the span below."""
    panel.fill(7, 11, 59, 54, 3)
    panel.fill(9, 13, 57, 52, 0)
    for number in range(1, 7):
        y = 8 + 7 * number
        if number == CHOSEN:
            panel.fill(0, y - 3, 4, y + 3, 3)
            panel.fill(9, y - 1, 57, y + 1, 3)
        else:
            panel.frame(9, y - 1, 57, y + 1, 2)
            panel.fill(9, y, 57, y, 1)
        panel.text(SMALL, 1, y - 2, str(number), 0 if number == CHOSEN else 3)
    panel.fill(41, 11, 59, 26, 3)
    panel.fill(43, 13, 57, 24, 1)
    for x in range(45, 58, 3):
        panel.fill(x, 13, x, 24, 2)
    panel.fill(7, 60, 59, 60, 2)
    for x, inward in ((7, 1), (59, -1)):
        panel.fill(x, 57, x, 63, 2)
        for away in (0, 1, 2):
            at = x + inward * (1 + away)
            panel.fill(at, 60 - away, at, 60 + away, 2)
    panel.fill(19, 57, 47, 63, 0)
    panel.text(SMALL, 21, 58, "4.20 m", 3)


def figure(panel):
    """The chosen joist, what it may carry, and how much of that is taken."""
    panel.text(SMALL, 66, 12, f"JOIST {CHOSEN}", 3)
    panel.text(LARGE, 65, 20, "3.2", 3, 2)
    panel.text(LARGE, 67, 38, "kN/m", 3)
    panel.frame(65, 50, 92, 56, 3)
    panel.fill(67, 52, 80, 54, 2)
    panel.fill(81, 52, 90, 54, 1)


def drawn():
    panel = Panel()
    panel.fill(0, 0, 95, 8, 3)
    panel.text(LARGE, 2, 1, "FLOOR 2", 0)
    panel.text(SMALL, 75, 2, "1:100", 0)
    plan(panel)
    figure(panel)
    return panel.rows


class Session:
    """The lines of a text; a byte takes eight microseconds on the serial line."""

    def __init__(self):
        self.us = 0
        self.lines = ["us call value"]

    def line(self, call, value):
        self.lines.append(f"{self.us} {call} {value}")

    def send(self, values):
        for value in values:
            self.us += 8
            self.line("byte", value)


SET_UP = [
    0x48, 64,  # duty: 64 rows
    0x44, 32,  # first common: that of the upper glass row
    0x90,  # gray mode: pulses of 9 quanta, 4 frames in a gray cycle
    0x88, 0x00, 0x89, 0x00,  # palette: shade 0 is never active
    0x8A, 0x33, 0x8B, 0x33,  # shade 1 for 3 quanta of 9
    0x8C, 0x66, 0x8D, 0x66,  # shade 2 for 6
    0x8E, 0x99, 0x8F, 0x99,  # shade 3 for all 9
    0x65,  # booster: 4 times the supply
    0x21, 0x81, 53,  # regulator and contrast: V0 of 6 V at 25 degrees C
    0x57,  # bias 1/12
    0x2F,  # all three power circuits
    0xAB,  # oscillator on
]


def page_bytes(rows, page):
    """Two bytes a column: a row's bit of the first counts 2, of the second 1."""
    for x in range(WIDTH):
        for weight in (2, 1):
            yield sum(1 << bit for bit in range(8) if rows[8 * page + bit][x] & weight)


def text(rows):
    session = Session()
    session.line("supply", 0)
    session.us = 100
    session.line("supply", 3000)
    session.line("temp", 25000)
    session.us = 121
    session.line("deadline", 0)
    session.line("select", 1)
    session.send(SET_UP)
    for page in range(HEIGHT // 8):
        session.line("dc", 0)
        session.send([0xB0 + page, 0x10, 0x00])
        session.line("dc", 1)
        session.send(page_bytes(rows, page))
    session.line("dc", 0)
    session.send([0xAF])
    session.us += 1000
    session.line("drive", 0)
    return "\n".join(session.lines) + "\n"


if __name__ == "__main__":
    print(text(drawn()), end="")
