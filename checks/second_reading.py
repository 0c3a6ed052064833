"""A second reading of the rules, for the keys that checks/stress draws: syllables of the default layout, Enter, moves, edits,
breaks, Add, Forget, Hide, and the window, which is opened and closed. It follows docs/KEYS.md and docs/MODEL.md, tries each
segmentation, and shares no code with the program."""
import re
from itertools import combinations

LIMIT = 10
HIDDEN = 2**64 - 1
INITIALS = "ㄅㄆㄇㄈㄉㄊㄋㄌㄍㄎㄏㄐㄑㄒㄓㄔㄕㄖㄗㄘㄙ"
FINALS = "ㄚㄛㄜㄝㄞㄟㄠㄡㄢㄣㄤㄥㄦ"
TONES = "˙ˊˇˋ"
KEYS = {"h": "ㄘ", "g": "ㄕ", "2": "ㄉ", "k": "ㄜ"}
TONE_KEYS = {"4": "ˋ", "7": "˙"}


class Wrong(Exception):
    """The program did something else than the rules say."""


def code_of(text):
    """The code of a syllable without a medial."""
    code = 0
    for mark in text:
        for part, unit in (INITIALS, 512), (FINALS, 8), (TONES, 1):
            code += unit * (part.find(mark) + 1)
    return code


class System:
    """The system dictionary: for each list of codes its phrases and their frequencies."""

    def __init__(self, text):
        self.rows = {}
        for line in text.splitlines():
            phrase, frequency, *syllables = line.split()
            self.rows.setdefault(tuple(map(code_of, syllables)), {})[phrase] = int(frequency)

    def phrases(self, key):
        """The phrases of a key with their frequencies."""
        return self.rows.get(key, {})


class Dictionary:
    """The user's dictionary as one map, from a key and a phrase to a frequency and a time."""

    def __init__(self, rows, life, cap):
        self.rows, self.life, self.cap = rows, life, cap

    def is_hidden(self, pair):
        """Whether a pair is held and hidden."""
        return len(pair[0]) >= 2 and self.rows.get(pair, (0, 0))[1] == HIDDEN

    def learn(self, pair, orig, peak):
        """The note of a learn."""
        if pair in self.rows and not self.is_hidden(pair):
            frequency, time = self.rows[pair]
            others = [held for other, (held, _) in self.rows.items() if other[0] == pair[0] and not self.is_hidden(other)]
            frequency = updated(frequency, orig, max([orig, peak, *others]), max(self.life - time, 0))
        elif pair not in self.rows and len(self.rows) >= self.cap:
            return "full"
        else:
            frequency = orig or 1
        self.rows[pair] = frequency, min(self.life, HIDDEN - 1)
        self.life = min(self.life + 1, HIDDEN)
        return "added"

    def forget(self, pair):
        """The note of a forget."""
        return "forgot" if self.rows.pop(pair, None) else "none"

    def hide(self, pair):
        """The note of a hide."""
        if self.is_hidden(pair):
            return "none"
        if pair not in self.rows and len(self.rows) >= self.cap:
            return "full"
        self.rows[pair] = self.rows.get(pair, (0, 0))[0], HIDDEN
        return "hidden"

    def combined(self, system, key):
        """The combined rows of a key: phrases with their frequencies, in order."""
        rows = {phrase: frequency for phrase, frequency in system.phrases(key).items() if (key, phrase) not in self.rows}
        for pair, (frequency, _) in self.rows.items():
            if pair[0] == key and not self.is_hidden(pair):
                rows[pair[1]] = frequency
        return sorted(rows.items(), key=lambda row: (-row[1], row[0].encode()))


def updated(frequency, orig, most, ticks):
    """The frequency after a learn."""
    if ticks >= 50_000:
        return max(frequency - max((frequency - orig) // 5, 10), orig, 0)
    part, least = (5, 10) if ticks < 4000 else (10, 5)
    bound = min if frequency >= most else max
    return min(frequency + bound((most - orig) // part + 1, least), 99_999_999)


def best(rows, length, breaks):
    """The pieces of the best of all segmentations: the start and the phrase of each."""
    chosen = None
    for count in range(length):
        for cuts in combinations(range(1, length), count):
            edges = [0, *cuts, length]
            spans = list(zip(edges, edges[1:]))
            if not breaks <= set(cuts) or any(not rows[span] for span in spans):
                continue
            lengths = [end - start for start, end in spans]
            apart = sum(abs(one - other) for one, other in combinations(lengths, 2))
            often = sum(rows[span][0][1] // (512 if size == 1 else 1) for span, size in zip(spans, lengths))
            score = 1000 * length + 1000 * (6 * length // len(spans)) - 100 * apart + often
            chosen = max(chosen or (score, lengths, spans), (score, lengths, spans))
    return [(start, rows[start, end][0][0]) for start, end in chosen[2]]


class Editor:
    """One context. `talk` yields each call that it makes, and is sent what the dictionary answers; `lines` is what it shows."""

    def __init__(self, system):
        self.system, self.lines = system, []
        self.cells, self.cursor, self.breaks, self.pieces = [], 0, set(), []

    def show(self, held="", commit="", window="", note=""):
        """Adds a line."""
        text = "".join(phrase for _, phrase in self.pieces)
        self.lines.append(f"{text}\t{2 * self.cursor}\t{held}\t{commit}\t{window}\t{note}")

    def talk(self, keys):
        """All keys, one after another."""
        held = ""
        for key in re.findall("<[^>]*>|.", keys):
            if key in KEYS:
                held += KEYS[key]
                self.show(held)
            elif key in TONE_KEYS:
                yield from self.syllable(code_of(held + TONE_KEYS[key]))
                held = ""
            elif key == "<X>":
                # a window is open, unless the key before was a bell
                self.show(note="" if self.lines[-1].split("\t")[4] else "bell")
            else:
                yield from self.named(key[1], int(key[2:-1] or 0))

    def named(self, key, count):
        """A key with a name."""
        end = len(self.cells)
        if key in "HZ":
            self.cursor = 0 if key == "H" else end
        elif key == "L" and self.cursor > 0:
            self.cursor -= 1
        elif key == "R" and self.cursor < end:
            self.cursor += 1
        elif key == "E" and end:
            return (yield from self.enter())
        elif key in "BD" and 0 <= self.cursor - (key == "B") < end:
            return (yield from self.delete(self.cursor - (key == "B")))
        elif key == "T" and 0 < self.cursor < end:
            self.breaks ^= {self.cursor}
            yield from self.look()
        elif key == "V" and end:
            return (yield from self.window())
        elif key in "CFK" and self.cursor + count <= end:
            return (yield from self.mark(key, count))
        else:
            return self.show(note="bell")
        return self.show()

    def learn_of(self, start, phrase):
        """The call that learns a phrase for the cells from a place on."""
        key = tuple(self.cells[start : start + len(phrase)])
        known = self.system.phrases(key)
        return "learn", (key, phrase), known.get(phrase, 0), max(known.values(), default=0)

    def look(self):
        """Looks up the cells, and shows the best of them. The combined rows of each interval."""
        if not self.cells:
            self.pieces = []
            return {}
        rows = yield "look", tuple(self.cells)
        self.pieces = best(rows, len(self.cells), self.breaks)
        return rows

    def syllable(self, code):
        """A whole syllable: a full buffer gives its first piece away before."""
        commit, note = "", ""
        if len(self.cells) == LIMIT:
            commit = self.pieces[0][1]
            size = len(commit)
            note = yield self.learn_of(0, commit)
            self.cells = self.cells[size:]
            self.breaks = {place - size for place in self.breaks if place > size}
            self.cursor = max(self.cursor - size, 0)
        self.breaks = {place + (place > self.cursor) for place in self.breaks if place != self.cursor}
        self.cells.insert(self.cursor, code)
        self.cursor += 1
        yield from self.look()
        self.show(commit=commit, note="full" if note == "full" else "")

    def delete(self, place):
        """Deletes a cell."""
        self.breaks = {at - (at > place) for at in self.breaks if at not in (place, place + 1)}
        del self.cells[place]
        self.cursor = place
        yield from self.look()
        self.show()

    def enter(self):
        """Commits all, and learns longer pieces by themselves and neighbours of one syllable joined."""
        stretches = []
        for start, phrase in self.pieces:
            joins = stretches and len(phrase) == 1 and stretches[-1][2] and start not in self.breaks
            if joins:
                stretches[-1][1] += phrase
            else:
                stretches.append([start, phrase, len(phrase) == 1])
        notes = []
        for start, phrase, _ in stretches:
            notes.append((yield self.learn_of(start, phrase)))
        commit = "".join(phrase for _, phrase in self.pieces)
        self.cells, self.cursor, self.breaks, self.pieces = [], 0, set(), []
        self.show(commit=commit, note="full" if "full" in notes else "")

    def mark(self, key, count):
        """Learns, forgets or hides the shown text of the cells from the cursor."""
        text = "".join(phrase for _, phrase in self.pieces)[self.cursor : self.cursor + count]
        call = self.learn_of(self.cursor, text)
        note = yield call if key == "C" else ({"F": "forget", "K": "hide"}[key], call[1])
        yield from self.look()
        self.show(note=note)

    def window(self):
        """Opens the window at the cursor, or at the last cell; the first page of the longest candidates is shown."""
        rows = yield from self.look()
        place = min(self.cursor, len(self.cells) - 1)
        ends = [end for end in range(place + 1, len(self.cells) + 1) if not self.breaks & set(range(place + 1, end))]
        listed = next(rows[place, end] for end in reversed(ends) if rows[place, end])
        page = "".join(f" {key}{phrase}" for key, (phrase, _) in zip("1234567890", listed))
        self.show(window=f"1/{(len(listed) + 9) // 10}{page}")


class Reading:
    """What was read again: how many calls, and how many rounds."""

    def __init__(self, calls, rounds):
        self.calls, self.rounds = calls, rounds


def printed(call):
    """A call as the trace has it."""
    kind, words, *numbers = call
    key, phrase = (words, []) if kind == "look" else (words[0], [words[1]])
    return " ".join([kind, ",".join(map(str, key)), *phrase, *map(str, numbers)])


def answer(system, dictionary, call):
    """What the dictionary answers to a call."""
    kind, words, *numbers = call
    if kind == "look":
        spans = [(start, end) for start in range(len(words)) for end in range(start + 1, len(words) + 1)]
        return {(start, end): dictionary.combined(system, words[start:end]) for start, end in spans}
    return getattr(dictionary, kind)(words, *numbers)


def reread(system, dictionary, contexts, rounds, lines):
    """Reads what a run printed, with its trace; the dictionary becomes that after the history."""
    first = next((place for place, line in enumerate(lines) if line.startswith("round ")), len(lines))
    trace = [line for line in lines[first:] if not line.startswith("round ")]
    saved = [line for line in lines[first:] if line.startswith("round ")]
    if first == len(lines):
        first = next((place for place, line in enumerate(lines) if re.match(r"\d+ (look|learn|forget|hide) ", line)), first)
        trace = lines[first:]
    editors = [Editor(system) for _ in contexts]
    talks = [editor.talk(keys) for editor, keys in zip(editors, contexts)]
    wanted = [next(talk, None) for talk in talks]
    freezes, installs, changed = [], [], False
    for place, line in enumerate(trace):
        who, words = line.split(" ", 1)
        if who == "0":
            if words == "freeze" and len(freezes) == len(installs):
                freezes.append(place)
                changed = False
            elif freezes[len(installs) :] and words == f"install {freezes[-1]}":
                installs.append(place)
            else:
                raise Wrong(f"entry {place}: {line}")
            continue
        call = wanted[int(who) - 1]
        if call is None or printed(call) != words:
            raise Wrong(f"entry {place}: {line}, and wanted {call and printed(call)}")
        before = dictionary.life
        reply = answer(system, dictionary, call)
        changed = changed or dictionary.life != before or reply in ("forgot", "hidden")
        try:
            wanted[int(who) - 1] = talks[int(who) - 1].send(reply)
        except StopIteration:
            wanted[int(who) - 1] = None
    if any(wanted) or changed or len(installs) != len(freezes) or not rounds <= len(freezes) <= rounds + 1:
        raise Wrong(f"{wanted} are still wanted, {len(freezes)} freezes, {len(installs)} installs, changed: {changed}")
    if saved != [f"round {number} saved {place}" for number, place in enumerate(freezes, 1)]:
        raise Wrong(f"{saved} for freezes at {freezes}")
    typed = []
    for context, editor in enumerate(editors, 1):
        typed += [f"context {context}", *editor.lines]
    for number, (line, other) in enumerate(zip(lines[:first], typed), 1):
        if line != other:
            raise Wrong(f"line {number} is {line!r}, and wanted {other!r}")
    if len(typed) != first:
        raise Wrong(f"{first} lines, and wanted {len(typed)}")
    return Reading(len(trace), len(freezes))
