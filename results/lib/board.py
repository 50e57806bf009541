"""A position as a board, in SVG: what results/draw draws, and results/page puts into its page."""

import argparse
import re
from typing import NamedTuple

OFF, BAR = 0, 25
PLACES = {"bar": BAR, "off": OFF, **{str(point): point for point in range(1, 25)}}
VALUES = [str(2**turns) for turns in range(13)]

# The measures of the picture. The cube stands left of the points, the checkers borne off right of them.
WIDTH, HEIGHT = 370, 256
TOP_EDGE, MIDDLE, BOTTOM_EDGE = 37, 127, 217
LEFT, POINT_WIDTH, BAR_WIDTH = 28, 24, 24
BAR_LEFT = LEFT + 6 * POINT_WIDTH
RIGHT = BAR_LEFT + BAR_WIDTH + 6 * POINT_WIDTH
CUBE_X, BAR_X, TRAY_X = 14, BAR_LEFT + BAR_WIDTH // 2, RIGHT + 14
POINT_HEIGHT, RADIUS, STACK_STEP = 74, 10, 21

PAPER, INK, WOOD, POINT_COLOURS, BAR_COLOUR = "#f6f1e6", "#222", "#ece0c6", ("#d2b184", "#b58a5a"), "#8c7355"
WHITE, DARK = "#fff", "#1d3557"
EDGE = f' rx="3" stroke="{INK}"'

# Where the dots of a die are, by the cells of a square of three by three.
DOTS = {1: (4,), 2: (2, 6), 3: (2, 4, 6), 4: (0, 2, 6, 8), 5: (0, 2, 4, 6, 8), 6: (0, 2, 3, 5, 6, 8)}

# Where the cube is and who is to move, where nothing is said.
USUAL = {"cube": "centred", "moves": "mine"}


class Wrong(Exception):
    """What can't be drawn or told, as a sentence."""


class Parser(argparse.ArgumentParser):
    def error(self, message):
        raise Wrong(message)


class Side(NamedTuple):
    name: str
    places: list
    # The colours of its checkers and dice and of what is on them, and its checkers in a line of text.
    fill: str
    mark: str
    disc: str

    @property
    def is_mover(self):
        return self.name == "mine"


def read_position(text):
    """The places of the mover and of the other side, or the first fault that docs/FORMATS.md has."""
    words = text.split(" ")
    if "" in words or words.count("/") != 1:
        raise Wrong(f"'{text}' isn't the mover's places, /, and the other side's, with single spaces between them")
    for word in words:
        if word != "/" and word not in PLACES:
            raise Wrong(f"'{word}' isn't a place: bar, off or a number from 1 to 24")
    middle = words.index("/")
    mine, theirs = ([PLACES[word] for word in side] for side in (words[:middle], words[middle + 1 :]))
    if not 1 <= len(mine) == len(theirs) <= 3:
        raise Wrong(f"'{text}' has {len(mine)} and {len(theirs)} checkers; the sides need equally many, one to three")
    for point in theirs:
        if point not in (OFF, BAR) and 25 - point in mine:
            raise Wrong(f"both sides hold the mover's point {25 - point}, which is the other side's point {point}")
    if not any(mine) or not any(theirs):
        raise Wrong("a side has all its checkers off, so the game is over")
    return sorted(mine, reverse=True), sorted(theirs, reverse=True)


def places_text(side):
    return " ".join(name for place in side.places for name, number in PLACES.items() if number == place)


def read_roll(text):
    """The numbers of the dice, or None where no roll is given."""
    if text is None:
        return None
    if not re.fullmatch("[1-6][1-6]", text) or text[0] < text[1]:
        raise Wrong(f"'{text}' isn't a roll: two digits from 1 to 6, the higher first")
    return [int(die) for die in text]


def read_value(text, place):
    """What the cube shows: 1 in the middle, and what it was turned to where a side owns it."""
    if text is None:
        return "1" if place == "centred" else "2"
    if place == "none" or text not in VALUES or (text == "1") != (place == "centred"):
        raise Wrong(f"a cube can't show '{text}' there: it shows 1 in the middle, and 2, 4, 8 up to 4096 with a side")
    return text


def column(point):
    """The middle of one of the mover's points."""
    number = 12 - point if point <= 12 else point - 13
    return LEFT + POINT_WIDTH // 2 + number * POINT_WIDTH + (BAR_WIDTH if number >= 6 else 0)


def centre(side, place, below):
    """The centre of a side's checker that stands on so many others."""
    if place == BAR:
        way = -1 if side.is_mover else 1
        return BAR_X, MIDDLE + way * (22 + STACK_STEP * below)
    point = place if side.is_mover else 25 - place
    x = TRAY_X if place == OFF else column(point)
    height = RADIUS + 2 + STACK_STEP * below
    return x, BOTTOM_EDGE - height if point <= 12 else TOP_EDGE + height


def box(left, top, width, height, colour, more=""):
    return f'<rect x="{left}" y="{top}" width="{width}" height="{height}" fill="{colour}"{more}/>'


def lettering(x, y, text, more=""):
    return f'<text x="{x}" y="{y}"{more}>{text}</text>'


def empty_board(half):
    """The points, the bar, the tray and their numbers. A page has the name of a half once."""
    yield box(LEFT, TOP_EDGE, TRAY_X + 12 - LEFT, BOTTOM_EDGE - TOP_EDGE, WOOD)
    yield f'<g id="{half}">'
    for number, colour in enumerate(POINT_COLOURS):
        yield f'<path fill="{colour}" d="{triangles(12 - number, -POINT_HEIGHT)}{triangles(14 - number, POINT_HEIGHT)}"/>'
    yield f'</g><use href="#{half}" x="{BAR_LEFT + BAR_WIDTH - LEFT}"/>'
    bars = (f"M{x} {TOP_EDGE}h{width}v{BOTTOM_EDGE - TOP_EDGE}h-{width}z" for x, width in ((BAR_LEFT, BAR_WIDTH), (RIGHT, 2)))
    yield f'<path fill="{BAR_COLOUR}" d="{"".join(bars)}"/>'
    yield row_of_numbers([(column(point), point) for point in range(13, 25)], TOP_EDGE - 4)
    below = [(column(point), point) for point in range(12, 0, -1)]
    yield row_of_numbers([*below, (BAR_X, "bar"), (TRAY_X, "off")], BOTTOM_EDGE + 12)


def triangles(point, way):
    """Every other point of the left half in a row, from this one to the right."""
    one = f"l{POINT_WIDTH // 2} {way} {POINT_WIDTH // 2} {-way}".replace(" -", "-")
    start = f"M{column(point) - POINT_WIDTH // 2} {BOTTOM_EDGE if point <= 12 else TOP_EDGE}"
    return start + f"m{POINT_WIDTH} 0".join([one] * 3)


def row_of_numbers(names, y):
    texts = "".join(f'<text x="{x}">{name}</text>' for x, name in names)
    return f'<g class="numbers" font-size="11" transform="translate(0 {y})">{texts}</g>'


def dots(centres, colour, width):
    return f'<path d="{"".join(f"M{x} {y}h0" for x, y in centres)}" stroke="{colour}" stroke-width="{width:g}"/>'


def checkers(side):
    """A side's checkers, the other side's with a dot."""
    centres = [centre(side, place, side.places[:number].count(place)) for number, place in enumerate(side.places)]
    yield f'<g class="{side.name}" fill="{side.fill}" stroke="{INK}">'
    yield "".join(f'<circle cx="{x}" cy="{y}" r="{RADIUS}"/>' for x, y in centres)
    if not side.is_mover:
        yield dots(centres, side.mark, 6)
    yield "</g>"


def dice(side, roll):
    """The dice in the half of the board at the right hand of the side that rolled them."""
    middle = (BAR_LEFT + BAR_WIDTH + RIGHT if side.is_mover else LEFT + BAR_LEFT) // 2
    places = list(zip(roll, (middle - 12, middle + 12)))
    yield from (box(x - 9, MIDDLE - 9, 18, 18, side.fill, EDGE) for _, x in places)
    cells = [(x - 5 + cell % 3 * 5, MIDDLE - 5 + cell // 3 * 5) for die, x in places for cell in DOTS[die]]
    yield dots(cells, side.mark, 3.6)


def cube(place, value):
    """The cube before the side that owns it."""
    y = {"mine": BOTTOM_EDGE - 12, "theirs": TOP_EDGE + 12, "centred": MIDDLE}[place]
    yield box(CUBE_X - 11, y - 11, 22, 22, WHITE, EDGE)
    size = {1: 15, 2: 14, 3: 11, 4: 8}[len(value)]
    yield lettering(CUBE_X, y + size // 3, value, f' font-size="{size}" font-weight="bold"')


def line_of(side, y, roll, moves):
    """What a side's checkers look like, its pips, and whether it is to move."""
    pips = sum(side.places)
    action = f", to play {roll}" if roll else ", to roll"
    line = f"{side.disc} {pips} pip{'s' if pips > 1 else ''}{action if side.name == moves else ''}"
    return lettering(8, y, line, ' text-anchor="start"')


def lines_of_picture(given, half):
    """The picture of a position with its options, as SVG."""
    places = read_position(given.position)
    mine, theirs = Side("mine", places[0], WHITE, INK, "○"), Side("theirs", places[1], DARK, WHITE, "●")
    roll, value = read_roll(given.roll), read_value(given.value, given.cube)
    position = f"{places_text(mine)} / {places_text(theirs)}"
    asked = ((name, text) for name, text in vars(given).items() if text and name != "position" and USUAL.get(name) != text)
    yield f'<svg xmlns="http://www.w3.org/2000/svg" width="{WIDTH}" height="{HEIGHT}" viewBox="0 0 {WIDTH} {HEIGHT}"'
    yield f' font-family="sans-serif" font-size="13" text-anchor="middle" stroke-width="1.6" stroke-linecap="round">'
    yield f"<title>{position}{''.join(f', {name} {text}' for name, text in asked)}</title>"
    yield f'<rect width="{WIDTH}" height="{HEIGHT}" fill="{PAPER}" rx="6"/>'
    yield from empty_board(half)
    yield from checkers(mine)
    yield from checkers(theirs)
    if roll:
        yield from dice(mine if given.moves == "mine" else theirs, roll)
    if given.cube != "none":
        yield from cube(given.cube, value)
    yield line_of(theirs, 16, given.roll, given.moves)
    yield line_of(mine, 248, given.roll, given.moves)
    yield lettering(WIDTH - 6, 248, position, ' text-anchor="end"')
    yield "</svg>"


def picture(given, half="half"):
    """The picture of a position, which has `roll`, `cube`, `value` and `moves` beside it as the words of results/draw have them."""
    return "".join(f"{line}\n" for line in lines_of_picture(given, half))
