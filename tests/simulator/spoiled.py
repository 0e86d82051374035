"""Files of a journal that aren't as they were written."""

# what a base has, and may lack
ITEMS = ("value", "peer", "waits", "path", "record", "name", "ticket")


def spoiled(draw, files):
    """The files with one of them spoiled, in a way that is drawn, and its number; or other files, and the first that is wrong."""
    ways = [*OF_STEPS, *OF_FILES] + (3 * [*OF_BASES] if len(files) > 1 else [])
    way = draw.choice(ways)
    if way in OF_FILES:
        return way(draw, files)
    place = draw.randrange(1, len(files)) if way in OF_BASES else draw.randrange(len(files))
    lines = files[place]
    has_steps = any(" = " in line for line in lines)
    other = way(draw, lines) if way in OF_BASES or has_steps else lines
    return [*files[:place], other, *files[place + 1 :]], place


# ---- steps


def drawn_step(draw, lines):
    """The place of a line of a step."""
    return draw.choice([place for place, line in enumerate(lines) if " = " in line and line[0].isdigit()])


def twice(draw, lines):
    place = drawn_step(draw, lines)
    return [*lines[:place], lines[place], *lines[place:]]


def left_out(draw, lines):
    place = drawn_step(draw, lines)
    return [*lines[:place], *lines[place + 1 :]]


def with_line(lines, place, line):
    return [*lines[:place], line, *lines[place + 1 :]]


def another_reply(draw, lines):
    place = drawn_step(draw, lines)
    other = draw.choice(("done", "booked", "booked wants", "idle", "nopath", "again", "out 0", "out 1", "granted 1", "refused 13 both", "refused 1"))
    return with_line(lines, place, lines[place].partition(" = ")[0] + " = " + other)


def next_reply(draw, lines):
    place = drawn_step(draw, lines)
    behind = [line for line in lines[place + 1 :] if " = " in line] or [lines[place]]
    return with_line(lines, place, lines[place].partition(" = ")[0] + " = " + behind[0].partition(" = ")[2])


def another_spelling(draw, lines):
    place = drawn_step(draw, lines)
    line = lines[place]
    return with_line(lines, place, draw.choice((line + " ", " " + line, "0" + line, line.replace(" ", "  ", 1), line.upper(), line.replace("=", "= =", 1))))


def another_digit(draw, lines):
    """A digit of an event is another: the line may be none, or its event gets another reply, or the same."""
    place = drawn_step(draw, lines)
    line = lines[place]
    digits = [at for at in range(line.index(" "), line.index("=")) if line[at] in "0123456789abcdef"]
    at = draw.choice(digits) if digits else 0
    return with_line(lines, place, line[:at] + draw.choice("0123456789abcdef") + line[at + 1 :])


def early_moment(draw, lines):
    place = drawn_step(draw, lines)
    return [*lines[:place], "at 2026-11-29T01:29:59Z", *lines[place:]]


OF_STEPS = (twice, left_out, another_reply, next_reply, another_spelling, another_digit, early_moment)

# ---- bases


def drawn_items(draw, lines):
    """The places of all items of a kind that the base has."""
    begun, end = lines.index("---") + 1, lines.index("end")
    kind = draw.choice([item for item in ITEMS if any(line.startswith(item + " ") for line in lines[begun:end])])
    return [place for place in range(begun, end) if lines[place].startswith(kind + " ")]


def without_item(draw, lines):
    place = draw.choice(drawn_items(draw, lines))
    return [*lines[:place], *lines[place + 1 :]]


def item_twice(draw, lines):
    place = draw.choice(drawn_items(draw, lines))
    return [*lines[:place], lines[place], *lines[place:]]


def items_swapped(draw, lines):
    """Two items change places: mostly of one kind."""
    places = drawn_items(draw, lines)
    one, other = draw.choice(places), draw.choice(places if draw.random() < 0.7 else drawn_items(draw, lines))
    return with_line(with_line(lines, one, lines[other]), other, lines[one])


def another_count(draw, lines):
    """One of the counts in the line `base` is another."""
    place = lines.index("---") + 1
    words = lines[place].split(" ")
    at = draw.randrange(1, 6)
    words[at] = str(draw.choice((0, int(words[at]) + 1, max(0, int(words[at]) - 1), int(words[1]) + 1, 1 << 62, 1 << 64)))
    return with_line(lines, place, " ".join(words))


def another_word(draw, lines):
    """A number, an address or a flag of an item is that of another item of its kind, or a number more; what is asked of paths stays."""
    places = [place for place in drawn_items(draw, lines) if not lines[place].startswith("waits")]
    if not places:
        return lines
    place = draw.choice(places)
    words, others = lines[place].split(" "), lines[draw.choice(places)].split(" ")
    at = draw.randrange(1, min(len(words) - 1, 7 if words[0] in ("record", "ticket") else 99))
    more = [str(int(words[at]) + 1)] if words[at].isdigit() and int(words[at]) < 1 << 20 else []
    words[at] = draw.choice([*others[at : at + 1], *more, "-", "0"])
    return with_line(lines, place, " ".join(words))


def another_space(draw, lines):
    place = draw.choice(drawn_items(draw, lines))
    line = lines[place]
    return with_line(lines, place, draw.choice((line + " ", line[:-1], " " + line, line.replace(" ", "  ", 1), line.upper())))


def ends_early(draw, lines):
    """The base ends before all of its items were told."""
    place, end = draw.choice(drawn_items(draw, lines)), lines.index("end")
    return [*lines[:place], *lines[end:]]


def cut_in_base(draw, lines):
    """The file ends in its base."""
    return lines[: draw.randint(lines.index("---") + 1, lines.index("end"))]


def without_end(draw, lines):
    return [line for line in lines if line != "end"]


def without_base(draw, lines):
    return [*lines[: lines.index("---") + 1], *lines[lines.index("end") + 1 :]]


def another_first(draw, lines):
    head, _, first = lines[0].rpartition(" ")
    return [f"{head} {draw.choice((0, int(first) + 1, int(first) - 1, 1 << 62))}", *lines[1:]]


OF_BASES = (without_item, item_twice, items_swapped, another_count, another_word, another_space, ends_early, cut_in_base, without_end, without_base, another_first)

# ---- files


def whole(draw, files):
    return files, 0


def one_missing(draw, files):
    place = draw.randrange(len(files))
    return ([*files[:place], *files[place + 1 :]] or files), place


def one_twice(draw, files):
    place = draw.randrange(len(files))
    return [*files[: place + 1], *files[place:]], place


def another_run(draw, files):
    place = draw.randrange(len(files))
    other = [files[place][0].replace("Z ", "z "), *files[place][1:]]
    return [*files[:place], other, *files[place + 1 :]], place


def another_order(draw, files):
    return draw.sample(files, len(files)), 0


def another_text(draw, files):
    """A link of one file's link text has another metric."""
    place = draw.randrange(len(files))
    lines = files[place]
    at = draw.choice([at for at in range(lines.index("---")) if lines[at].startswith("te = ")])
    return [*files[:place], with_line(lines, at, "te = 12"), *files[place + 1 :]], place


OF_FILES = (whole, one_missing, one_twice, another_run, another_order, another_text)
