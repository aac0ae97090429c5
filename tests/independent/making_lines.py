"""Command lines that are not understood, for every program."""

from random import Random

FILES_AND_CALLS = "|r1|good.sheet|good.image|bad.sheet|absent|1-2|w1-2|r1x"
# The words that chance draws from, one behind the other; an empty one is a word too.
WORDS = {
    program: [word.encode() for word in words.split("|")]
    for program, words in {
        "dock": "|--rule|2|p9.sheet|--help",
        "board": "--rule|--rule|--image|--small|--|-x|1|2|3|0|002|255|256|-1" + FILES_AND_CALLS,
        "image": "--rule|--rule|--small|--image|--|-x|1|2|3|256|write|move|" + FILES_AND_CALLS,
        "little": "0|7|4995|4996|00012|-1|+1|1x||x|--help|" + "9" * 35,
        "season": "--progress|--progress|--Progress|x||--|--help",
        "turn": "bans|gaps|bans|gaps|ban||--help|x",
        "scribe": "sheet|text|sheet|text|Sheet||--help|x",
    }.items()
}


def line(random: Random, program: str) -> list[bytes]:
    """Some words that mean something to a program, and some that do not, in any order."""
    known = WORDS[program]
    words = [random.choice(known) for _ in range(random.choice((0, 1, 1, 2, 2, 3, 4, 6)))]
    if program == "image" and words and random.random() < 0.7:
        words[0] = random.choice((b"write", b"move"))
    if words and random.random() < 0.05:
        words[random.randrange(len(words))] = random.choice((b"\xff", "ü".encode(), b"a\nb", b" "))
    return words
