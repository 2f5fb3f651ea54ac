"""Words of random texts: an outside expectation for `doc_words::words`.

A word is a longest run of characters of the categories L, M and N in one text of a page, which is then case-folded. Here both are
Python's: `unicodedata.category`, and `str.casefold`, which is full case folding. So words are found and folded by tables that were
made of Unicode's files by others.

Python's Unicode and the toolchain's are of different years. Unicode's stability policy promises that the folding of an assigned
character never changes; its category may. So characters are taken at random only of those that Unicode 3.2 had, which `unicodedata`
has beside its own version, and where both agree on whether they are of L, M or N; then their other cases, and the letters of LATER.

    python3 scripts/oracles/words.py

writes its lines into stdin and stdout of crates/trial_pages. Written with Python 3.11, Unicode 14.
"""

import unicodedata
from collections import Counter

from trial_lines import Dice, several, write

# Letters that came after 3.2 and whose folding is a case of its own: sharp S, Cherokee (whose small letters fold to the capitals),
# Georgian capitals, Adlam, Osage, letters outside the first plane.
LATER = "\u1e9e\u13f8\uab70\uabbf\u1c80\u1c88\u1c90\u1cbf\ua64a\ua7ae\u2c2f\ua7c5\U000104b0\U00010c80\U000118a0\U0001e900"

# Foldings to several characters, marks that fold to letters, final sigma, title case, numbers of each category.
CASES = "ßİıŉǰΐΰևẖẗẘẙẚﬀﬃﬅﬆﬓﬗςΣσᾀᾳῼᾼΆǅǈǲͅΩKÅſⅣⅷ²½٣৪〇ÄÉÑЖЩҐ中あア가אبकก"

# What stands between words. A `;` and a `|` divide calls and texts.
BETWEEN = " -_.,!?'\"()/&+*=<>@#$%^`~ «»—…€©→∑\t\u00a0\u200b\u200d\u3000\ufffd"


def is_of_words(category):
    return category[0] in "LMN"


def stable():
    """The characters that are taken at random: of Han and Hangul the first ones alone, or there were few others."""
    old = unicodedata.ucd_3_2_0
    found = []
    for number in (*range(0x3500), *range(0xA000, 0xAC80), *range(0xF900, 0x20080)):
        c = chr(number)
        then, now = old.category(c), unicodedata.category(c)
        if then not in ("Cn", "Co", "Cs") and is_of_words(then) == is_of_words(now) and c not in ";|\\{}\n\r":
            found.append(c)
    return found


def words_of(texts):
    """Each word once with its count, in the order of its bytes."""
    counts = Counter()
    for text in texts:
        run = ""
        for c in text + " ":
            if is_of_words(unicodedata.category(c)):
                run += c
            elif run:
                counts[run.casefold()] += 1
                run = ""
    return sorted(counts.items(), key=lambda pair: pair[0].encode())


def shown(counts):
    return ", ".join(f"{word} {count}" for word, count in counts)


def random_word(dice, characters):
    near = dice.below(len(characters))
    word = ""
    for _ in range(dice.between(1, 5)):
        kind = dice.below(10)
        if kind < 3:
            word += dice.pick(CASES + LATER)
        elif kind < 6:
            word += dice.pick("aAbBsSiIzZ019")
        elif kind < 9:
            word += characters[min(near + dice.below(40), len(characters) - 1)]
        else:
            word += dice.pick(characters)
    return word


def random_text(dice, characters):
    words = [random_word(dice, characters) for _ in range(dice.between(1, 5))]
    text = "" if dice.chance(80) else dice.pick(BETWEEN)
    for _ in range(dice.between(0, 9)):
        text += dice.pick(words)
        if dice.chance(20):
            text = text[:-1] + dice.pick([text[-1].upper(), text[-1].lower(), text[-1].title(), text[-1].swapcase()])
        text += "".join(dice.pick(BETWEEN) for _ in range(dice.between(0, 2)))
    return text.replace("|", "").replace(";", "").replace("\\", "")


def main():
    dice, characters = Dice(1), stable()
    calls = []
    for _ in range(1000):
        texts = [random_text(dice, characters) for _ in range(dice.pick([1, 1, 1, 2, 3]))]
        calls.append(("words " + " | ".join(texts), shown(words_of(texts))))
    lines = ["# 1,000 pages of one to three texts, ten in a line."]
    write("words.py", lines + [several(calls[at : at + 10]) for at in range(0, len(calls), 10)])


if __name__ == "__main__":
    main()
