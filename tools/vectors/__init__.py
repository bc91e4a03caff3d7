"""The requests of the recorded test, crates/tq/stdin: those made by hand (by_hand.py, guarded.py, symbols.py), those
drawn by chance (by_chance.py, guarded.py, symbols.py), and a last line, behind which there is no newline. All are
written with lines.py."""
from vectors import by_chance, by_hand, guarded, symbols

BY_CHANCE = "by chance"


def requests():
    """(section's name, line) of every request, in the file's order."""
    chance = by_chance.requests() + guarded.by_chance() + symbols.by_chance()
    return by_hand.requests() + guarded.by_hand() + symbols.by_hand() + [(BY_CHANCE, line) for line in chance] + [
        ("end of file", by_hand.last())]
