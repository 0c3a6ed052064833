#!/usr/bin/env python3
"""Reads the two slots of a folder by docs/FORMATS.md, apart from the program, and prints the dictionary that counts: the line
`slot S number N life L`, or `none` if no slot is open, and for each row its frequency, its time, its phrase and the codes of
its syllables. Status 1 if a slot is open and damaged."""
import hashlib
import struct
import sys
from collections import Counter

OPEN = 0xA5
HEADER = 33
DIGEST = 32


class Damaged(Exception):
    """An open slot whose bytes are no checkpoint."""


def image_of(rows):
    """The one image of rows (codes, phrase, frequency, time)."""
    nodes = {()} | {codes[:length] for codes, *_ in rows for length in range(len(codes) + 1)}
    nodes = sorted(nodes, key=lambda codes: (len(codes), codes))
    children = Counter(codes[:-1] for codes in nodes if codes)
    own = Counter(codes for codes, *_ in rows)
    text = b"".join(phrase for _, phrase, _, _ in rows)
    image = [b"CHEWTRI1", struct.pack("<3I", len(rows), len(nodes), len(text))]
    child, row, place = 1, 0, 0
    for codes in nodes:
        last = codes[-1] if codes else 0
        image.append(struct.pack("<2H3I", last, children[codes], child, own[codes], row))
        child += children[codes]
        row += own[codes]
    for _, phrase, frequency, time in rows:
        image.append(struct.pack("<3IQ", frequency, place, len(phrase), time))
        place += len(phrase)
    return b"".join(image) + text


def rows_of(image):
    """The rows of an image. That they give the same image again shows that each field is as it should be."""
    if image[:8] != b"CHEWTRI1" or len(image) < 20:
        raise Damaged("no image")
    count, nodes, length = struct.unpack_from("<3I", image, 8)
    rows_at = 20 + 16 * nodes
    text_at = rows_at + 20 * count
    if nodes == 0 or len(image) != text_at + length:
        raise Damaged("an image of another length")
    codes, parents, rows = [], [None], []
    for node in range(nodes):
        last, children, _, own, first = struct.unpack_from("<2H3I", image, 20 + 16 * node)
        codes.append(codes[parents[node]] + (last,) if node else ())
        parents += [node] * children
        if len(parents) < node + 2 <= nodes or first + own > count:
            raise Damaged("nodes that lead nowhere")
        for row in range(first, first + own):
            frequency, place, size, time = struct.unpack_from("<3IQ", image, rows_at + 20 * row)
            phrase = image[text_at + place : text_at + place + size]
            rows.append((codes[node], phrase, frequency, time))
    order = [(len(key), key, phrase) for key, phrase, _, _ in rows]
    if order != sorted(set(order)) or image_of(rows) != image:
        raise Damaged("an image that its rows don't have")
    return rows


def checkpoint_of(slot):
    """The number, the life and the rows of a slot's bytes; None if the slot is shut."""
    if len(slot) < HEADER or slot[0] != OPEN:
        return None
    magic = slot[1:9]
    number, life, length = struct.unpack_from("<3Q", slot, 9)
    if magic not in (b"CHEWSLT1", b"CHEWSLT2") or number == 0:
        raise Damaged("no header")
    end = HEADER + length
    if magic == b"CHEWSLT2" and hashlib.sha256(slot[1:end]).digest() != slot[end : end + DIGEST]:
        raise Damaged("another digest")
    return number, life, rows_of(slot[HEADER:end])


def slots_in(folder):
    """The bytes of both slots; none where a slot is absent."""
    slots = []
    for name in ("slot0", "slot1"):
        try:
            with open(f"{folder}/{name}", "rb") as file:
                slots.append(file.read())
        except FileNotFoundError:
            slots.append(b"")
    return slots


def dictionary_in(folder):
    """The slot that counts, its number, its life and its rows; None if no slot is open."""
    found = None
    for place, slot in enumerate(slots_in(folder)):
        checkpoint = checkpoint_of(slot)
        if checkpoint and (found is None or checkpoint[0] > found[1]):
            found = (place, *checkpoint)
    return found


def main():
    """Prints the dictionary of the folder that the one word names."""
    try:
        found = dictionary_in(sys.argv[1])
    except Damaged as damage:
        sys.exit(f"a damaged slot: {damage}")
    if found is None:
        print("none")
        return
    slot, number, life, rows = found
    print(f"slot {slot} number {number} life {life}")
    for codes, phrase, frequency, time in rows:
        print(frequency, time, phrase.decode(), ",".join(map(str, codes)))


if __name__ == "__main__":
    main()
