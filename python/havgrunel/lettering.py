"""How wide a text is drawn, and where it breaks into lines.

A picture cannot ask its reader's machine how wide a word is. The widths below are those of DejaVu Sans, which is about as wide as Verdana and wider
than Arial and Helvetica: what fits by them fits in the fonts that the pictures name.
"""

import unicodedata
from typing import List

# Hundredths of the font's size, rounded up, for the printable ASCII characters.
_WIDTHS = {
    28: "'", 29: "ijl", 30: "IJ", 32: " ,.", 34: "/:;\\|", 36: "f", 37: "-", 40: "()[]t", 41: "!", 42: "r", 46: '"', 50: "*_`", 53: "sz", 54: "?",
    55: "c", 56: "L", 58: "Fk", 60: "vxy", 61: "P", 62: "TYaoe", 64: "ESbdghnpqu$0123456789{}", 66: "K", 69: "AVBRXZ", 70: "C", 74: "U", 76: "HN",
    78: "DG&", 79: "OQ", 82: "w", 84: "#+<=>^~", 87: "M", 95: "%", 98: "m", 99: "W", 100: "@",
}  # fmt: skip
_WIDTH_OF = {letter: width for width, letters in _WIDTHS.items() for letter in letters}
# Other letters are at most as wide as the font's size, and signs that are little pictures somewhat wider. A bold letter is at most so much wider than the
# same one that is not.
_LETTER = 100
_SIGN = 140
_BOLD = 14


def width(text: str, size: float, bold: bool = False) -> float:
    """How wide a text is at the most, in the unit of its font's size."""
    total = 0
    for letter in unicodedata.normalize("NFD", text):
        if not unicodedata.combining(letter):
            other = _SIGN if unicodedata.category(letter) == "So" else _LETTER
            total += _WIDTH_OF.get(letter, other) + (_BOLD if bold else 0)
    return total * size / 100


def wrap(text: str, room: float, size: float, bold: bool = False, most: int = 4) -> List[str]:
    """A text in lines that fit the room: broken between words, within a word only where it is too long for a line, and cut off by an ellipsis where
    it takes more than `most` lines."""
    lines: List[str] = []
    for word in text.split():
        if lines and width(f"{lines[-1]} {word}", size, bold) <= room:
            lines[-1] += f" {word}"
            continue
        while width(word, size, bold) > room and len(word) > 1:
            head = _head(word, room, size, bold)
            lines.append(head)
            word = word[len(head) :]
        lines.append(word)
    if len(lines) > most:
        lines = lines[:most]
        lines[-1] = _head(lines[-1], room - width("…", size, bold), size, bold) + "…"
    return lines


def _head(word: str, room: float, size: float, bold: bool) -> str:
    """As many letters of a word as fit, and one at the least."""
    count = len(word)
    while count > 1 and width(word[:count], size, bold) > room:
        count -= 1
    return word[:count]
