"""What a manual says, for the cases that cite it."""
import re

# The macros of mdoc(7) that occur among the words of a line.
INLINE = "Ar Cm Fl Ic Ns Oc Oo Op Pa Pq Ql Sy Xr".split()


def words_of(text):
    """The letters and digits of a text, word by word."""
    return " ".join(re.findall(r"\w+", text))


def said_in(path):
    """The words of a manual in mdoc(7), without its macros."""
    with open(path, encoding="utf-8") as file:
        lines = [line.split() for line in file]
    words = [[word for word in line[1:] if word not in INLINE] if line and line[0].startswith(".") else line for line in lines]
    # (a character that is written as an escape is no word)
    return words_of(re.sub(r"\\[&e]", " ", " ".join(word for line in words for word in line)))
