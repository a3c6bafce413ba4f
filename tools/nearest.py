"""The word that somebody may have meant."""
import difflib

from tools.form import OTHER_NAMES


def folded(word):
    return word.strip().lower().replace("-", "_").replace(" ", "_")


def nearest(word, words):
    """The nearest of some words, or "" where none is near. Case, and Spring's own names, don't keep it away."""
    words = list(dict.fromkeys(words))
    if word.endswith(".class"):
        word = word[:-6]
        if word in words:
            return word
    by_folded = {}
    for each in words:
        by_folded.setdefault(folded(each), each)
    other = OTHER_NAMES.get(folded(word)) or OTHER_NAMES.get(folded(word).replace("_", ""))
    for one in (folded(word), other):
        if one and one in by_folded and by_folded[one] != word:
            return by_folded[one]
    last = folded(word).rpartition(".")[2]
    for each in words:
        # A class without its packages, or with them.
        if each != word and folded(each).rpartition(".")[2] == last and ("." in word) != ("." in each):
            return each
    if len(word) > 200:
        return ""
    found = difflib.get_close_matches(folded(word), [each for each in by_folded if by_folded[each] != word], 1, 0.6)
    return by_folded[found[0]] if found else ""
