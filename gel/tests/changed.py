"""Sources with some of their tokens changed: each is refused with a place, or compiles to what the program reads."""
import random

from ..tokens import all_tokens

ODD = ["", ";", "{", "}", "(", ")", "::", "..", "->", "<-", "=", "0", "-1", "99999999999", "\"a\"", "'a b'", "let", "if", "else", "repeat 2 {", "return",
       "null", "true", "#a", "new", "emit", "int", "text", "Box", "Box?", "keep", "blocks", "block 0", "%0", "object", "on", "signal", "class", "as", "not",
       "is", "every", "weak", "in", "|", "?", "é", "\"", "'", "//"]


def changed(source, seed):
    """The source with one to three tokens left out, doubled, swapped or replaced."""
    rng = random.Random(seed)
    tokens = [it.text for it in all_tokens(source)]
    for _ in range(rng.choice([1, 1, 2, 3])):
        solid = [at for at, it in enumerate(tokens) if it.strip()]
        at, other = rng.choice(solid), rng.choice(solid)
        way = rng.randrange(5)
        if way == 0:
            tokens[at] = ""
        elif way == 1:
            tokens[at] += " " + tokens[at]
        elif way == 2:
            tokens[at], tokens[other] = tokens[other], tokens[at]
        elif way == 3:
            tokens[at] = tokens[other]
        else:
            tokens[at] = rng.choice(ODD)
    return "".join(tokens)
