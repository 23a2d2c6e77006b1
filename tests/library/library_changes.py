"""The rows of its report that the library reports as replaced, compared with the model's texts before and after."""
from library import reply
from protocol import Session, lines_of, parts_replaced, place_of, rows_of

CHANGING = ("text", "edit", "undo", "redo", "pattern", "off", "replace")


def hull(buffer, word, numbers, payload):
    """The extent of an edit or a replacement, in characters: where it starts, and where it ends in the old text and in
    the new one; None if it changes nothing."""
    old, new = buffer.text, payload.decode(errors="replace")
    if word == "edit":
        start, stop = place_of(old, *numbers[:2]), place_of(old, *numbers[2:4])
        return start, stop, start + len(new)
    parts = parts_replaced(old, buffer.pattern, new)
    behind = len(parts[-1])
    return (len(parts[0]), len(old) - behind, sum(map(len, parts)) - behind) if len(parts) > 1 else None


def lines_between(text, start, stop):
    return len(lines_of(text[start:stop]))


class Watched:
    """A session of the model, with what each buffer reports, and for each of its texts the extent of the change that
    led to it from the one before."""

    def __init__(self):
        self.model, self.told, self.hulls = Session(), [(0, 0, 0)], [[None]]

    def rows(self):
        buffer = self.model.buffer
        return [] if buffer.pattern is None else rows_of(buffer.text, buffer.pattern)

    def most_added(self, word, payload, change):
        """The maximum number of rows that may be reported as added."""
        buffer = self.model.buffer
        if buffer.pattern is None:
            return 0
        if word == "edit":
            return len(lines_of(payload.decode()))
        if word in ("replace", "redo", "undo"):
            return 0 if change is None else lines_between(buffer.text, change[0], change[1 if word == "undo" else 2])
        return len(lines_of(buffer.text))

    def carried_out(self, command):
        """The model's reply, and the change whose text the command made current or left."""
        word, numbers, payload = command
        buffer, hulls = self.model.buffer, self.hulls[self.model.chosen]
        at, change = buffer.at, None
        if word in ("edit", "replace") and not self.model.refusal(*command):
            change = hull(buffer, *command)
        told = self.model.reply(command)
        if told.startswith(b"error"):
            return told, None
        if word in ("edit", "replace"):
            hulls[at + 1 :] = [change]
        elif word in ("undo", "redo"):
            change = hulls[at if word == "undo" else at + 1]
        elif word == "text":
            hulls[:] = [None]
        elif word == "fork":
            self.told.append((0, 0, 0))
            self.hulls.append([None])
        return told, change


def wrong_stretch(before, after, stretch, most):
    """What is wrong with rows that are reported as replaced."""
    first, removed, added = stretch
    if first + removed > len(before) or first + added > len(after):
        yield f"{stretch} isn't within {len(before)} and {len(after)} rows"
    if before[:first] != after[:first] or before[first + removed :] != after[first + added :]:
        yield f"other rows than those of {stretch} are changed"
    if added > most:
        yield f"{stretch} adds more than {most} rows"


def wrong_changes(session, commands):
    """What is wrong with what a session reports after each of some commands, up to the first wrong answer."""
    watched = Watched()
    for place, command in enumerate(commands):
        before, got = watched.rows(), reply(session, command)
        due, change = watched.carried_out(command)
        stretch, number = tuple(session.changed), watched.model.chosen
        wrong = [] if got == due else [f"it is answered {got[:60]}, not {due[:60]}"]
        if command[0] in CHANGING and not due.startswith(b"error"):
            wrong += wrong_stretch(before, watched.rows(), stretch, watched.most_added(command[0], command[2], change))
            watched.told[number] = stretch
        elif stretch != watched.told[number]:
            wrong.append(f"{stretch} is reported, not {watched.told[number]}")
        if wrong:
            return [f"command {place}, {command[:2]}: {one}" for one in wrong]
    return []
