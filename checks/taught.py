#!/usr/bin/env python3
"""What 16 contexts teach in checks/kills, and how much of it a folder has.

Each context has words of its own and teaches them in order, each word once, twice or three times. How far a dictionary is
stands in one line: how many words are still to be taught, the number of the checkpoint, the life, and for each context how
many times it taught. The commands, PLACE is such a line:

    system           prints the system dictionary
    script PLACE     prints a script that goes on from there
    commits PLACE    prints what this script commits, context by context
    found FOLDER PLACE    prints how far the folder's dictionary is; status 1 if it is damaged, is none that this teaching can
                     leave, or lacks what was there at PLACE
"""
import sys
from itertools import product

sys.dont_write_bytecode = True
from read_slots import Damaged, dictionary_in

CONTEXTS = 16
ROUNDS = 64

# the keys of the initials of the default layout, and of two finals with a tone; a syllable's code is 512 times the number of
# its initial, 8 times that of its final, and the number of its tone mark
INITIALS = "1qaz2wsxedcrfv5tgbyhn"
FINALS = {"84": 8 * 1 + 4, "i4": 8 * 2 + 4}


def syllables():
    """The keys, the code and the one character of each syllable."""
    places = enumerate(product(enumerate(INITIALS, 1), FINALS.items()))
    return [(key + final, 512 * initial + code, chr(0x4E00 + place)) for place, ((initial, key), (final, code)) in places]


def words_of(context):
    """The words that a context teaches, in order: the keys, the codes and the phrase of each, and how often it is taught."""
    pairs = list(product(syllables(), repeat=2))[context::CONTEXTS]
    for place, ((keys, code, one), (more, next_code, other)) in enumerate(pairs):
        yield keys + more + "<E>", (code, next_code), one + other, 1 + place % 3


def teaching_of(context, taught):
    """The keys and the phrase of each time that a context still teaches."""
    times = [(keys, phrase) for keys, _, phrase, often in words_of(context) for _ in range(often)]
    return times[taught:]


def counts_in(place):
    """For each context how many times it taught; none where no place is told."""
    return [int(count) for count in place.split()[3:]] or [0] * CONTEXTS


def taught_in(context, found):
    """How many times a context taught, by the rows that are found; they are taken out."""
    taught, before, ended = 0, -1, False
    for _, codes, phrase, often in words_of(context):
        frequency, time = found.pop((codes, phrase.encode()), (0, None))
        # a new word gets the frequency 1, and one more each time while that is below 5
        if frequency > often or (ended and frequency):
            raise Damaged(f"context {context + 1} taught {phrase} {frequency} times, and not what comes before")
        if frequency and time <= before:
            raise Damaged(f"context {context + 1} taught {phrase} at {time}, before another")
        taught, before, ended = taught + frequency, time if frequency else before, frequency < often
    return taught


def found_in(folder, place):
    """How far the dictionary of a folder is."""
    _, number, life, rows = dictionary_in(folder) or (0, 0, 0, [])
    found = {(codes, phrase): (frequency, time) for codes, phrase, frequency, time in rows}
    times = {time for _, time in found.values()}
    counts = [taught_in(context, found) for context in range(CONTEXTS)]
    if found or life != sum(counts) or len(times) != len(rows) or any(time >= life for time in times):
        raise Damaged("rows, lives or times that nobody taught")
    if any(count < before for count, before in zip(counts, counts_in(place))):
        raise Damaged(f"less than was there: {counts}, and before {counts_in(place)}")
    left = sum(len(teaching_of(context, count)) for context, count in enumerate(counts))
    return " ".join(map(str, [left, number, life, *counts]))


def main():
    """Does what the words say."""
    command, *words = sys.argv[1:]
    if command == "system":
        for _, code, character in syllables():
            print(character, 1, text_of(code))
    elif command == "script":
        for context, count in enumerate(counts_in(words[0])):
            print(f"{context + 1}:" + "".join(keys for keys, _ in teaching_of(context, count)))
        print("round\n" * ROUNDS, end="")
    elif command == "commits":
        for context, count in enumerate(counts_in(words[0])):
            print(f"context {context + 1}")
            print("".join(phrase + "\n" for _, phrase in teaching_of(context, count)), end="")
    else:
        try:
            print(found_in(*words))
        except Damaged as damage:
            sys.exit(str(damage))


def text_of(code):
    """The Bopomofo of a syllable without a medial."""
    initial, final = chr(0x3104 + code // 512), chr(0x3119 + code // 8 % 16)
    return initial + final + " ˙ˊˇˋ"[code % 8]


if __name__ == "__main__":
    main()
