"""Counts what a script compares, shows what differs, and ends the script where much does."""

import sys

# So many answers that differ are shown, of each answer so many characters, and then the script ends.
ANSWERS, CHARACTERS = 20, 600


class Comparisons:
    """Compares answers: compare(what, found, wanted), where what is compared is words, or words and what they are of."""

    def __init__(self):
        self.count = self.differing = 0

    def __call__(self, what, found, wanted):
        self.count += 1
        if found != wanted:
            self.differing += 1
            words = what if isinstance(what, str) else f"{what[0]} of {shown(what[1])}"
            print(f"{words}: {shown(found)}, not {shown(wanted)}")
            if self.differing == ANSWERS:
                print(f"{self}, and the rest isn't compared")
                sys.exit(1)

    def __str__(self):
        return f"{self.count} comparisons: {self.differing} differ"


def shown(thing):
    """What is printed of a thing: of what is long its front."""
    text = repr(thing)
    return text if len(text) <= CHARACTERS else text[:CHARACTERS] + " .."
