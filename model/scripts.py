"""Random scripts for the duel, lists of what is known, and texts with a few changes."""

from lines import text_of

def script_for(rng, log, suggestions, guarded):
    """A script of edits of a log; `suggestions` are lines that may come in. If it may have guards,
    most of them are for the log that all edits before leave."""
    lines, now, is_open = [], log[:], False

    def text():
        bad = rng.random() < 0.03
        return rng.choice(["x" * 256, "\x7f"] if bad else [*log, *suggestions, "", "  blanks"])

    for _ in range(rng.choice([0, 1, 1, 2, 4, 8])):
        length = len(now)
        place = rng.randrange(length + 1) if rng.random() < 0.9 else rng.randrange(2 * length + 2)
        if guarded and rng.random() < 0.6:
            at = place if rng.random() < 0.8 else rng.randrange(length + 2)
            lines.append(f"expect {at} " + ("".join(now[at:at + 1])
                                            if rng.random() < 0.8 else text()))
        kind = rng.choice(["insert", "delete", "replace", "seed", "insert", "replace"])
        if kind == "seed":
            lines.append(f"seed {rng.choice([rng.randrange(1 << 31), 7, 2147483648])}")
        else:
            new = [] if kind == "delete" else [text()]
            lines.append(" ".join([kind, str(place), *new]))
            now[place:place + (kind != "insert")] = new
        if rng.random() < 0.15:
            lines.append("end" if is_open else "begin")
            is_open = not is_open
        if rng.random() < 0.05:
            lines.append(rng.choice(["# a comment", "", "  ", "begin", "end", "insert", "delete x",
                                     "insert  1 x", "seed 1 ", "delete 0 0", "expect 0 x"]))
    return text_of(lines + ["end"] * is_open)

def script_words(rng, script):
    """The words by which a run gets a script: its file, or now and then each line of it."""
    if script and script.isascii() and rng.random() < 0.3:
        return [f"--edit={it}" for it in script.split("\n")[:-1]]
    return ["script.txt"]

def known_list(rng, entries):
    """A list of what is known that has some of these entries, all, or none, and perhaps others."""
    share = rng.choice([0, 0.9, 1])
    some = [it for it in entries if rng.random() < share]
    rng.shuffle(some)
    text = text_of(f"{rng.choice(['', '', '  '])}{it}" for it in some)
    return mutated(rng, text) if rng.random() < 0.2 else text

# ---- Mutated texts

PIECES = ["0", "-1", "1", "12", "13", "-0", "000", "300", "301", "499", "500", "999", "1000", "100",
          "101", "1001", "1100", "1101", "2099", "2100", "3499", "3500", "999999", "1000000", "x",
          "+7", "1234567890", "-", ">$<", "255", "256", "10000", "20", "21", "9900", "10000", "",
          "\r", "\t", " ", "\f", "\xe9", "5", "8", "4", "msg.ok", "place.start", "num.letters",
          "msg.okay", "num.words", "#"]

def mutated(rng, text):
    """A text with a few changes of its lines and fields."""
    lines = text.split("\n")
    for _ in range(rng.choice([1, 1, 1, 2, 4])):
        at = rng.randrange(len(lines))
        fields = lines[at].split(" ")
        field, piece, kind = rng.randrange(len(fields)), rng.choice(PIECES), rng.randrange(12)
        if kind < 6:
            fields[field:field + (kind != 4)] = [piece] if kind < 5 else []
            lines[at] = " ".join(fields)
        elif kind == 6:
            del lines[at]
        elif kind in (7, 8):
            lines.insert(at, rng.choice(lines) if kind == 7 else piece)
        elif kind == 9:
            del lines[at:]
        elif kind == 10:
            many = " 5" * rng.choice([39, 40, 41])
            lines[at] += rng.choice(["\r", " 1 2 3", "x" * 256, many, " x"])
        else:
            lines[at:at + 1] = [lines[at]] * rng.choice([2, 60, 1005, 2005])
        lines = lines or [""]
    return "\n".join(lines)
