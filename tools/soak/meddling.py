"""What others do between two uses of the program."""

import re

import beginnings


def meddle(story):
    """What others do between two uses: a reset of the device, and seldom something that breaks a premise."""
    chance = story.chance
    if "K" in story.world.files and chance.random() < 0.7:
        story.tell("(the journal that was moved is put back)")
        story.counts["put back"] += 1
        story.write("J", story.world.files["K"])
        story.remove("K")
        story.before = story.aside
    for name in ("F", "G"):
        # a device that is gone answers nothing before it is reset
        if chance.random() < (0.7 if story.is_gone(name) else 0.2):
            story.counts["reset"] += name + ".line" in story.world.files
            story.tell("(reset of %s)" % name)
            story.remove(name + ".line")
    journal = story.journal()
    if chance.random() < (0.5 if journal is not None and journal.is_unfinished() else 0.1):
        lose_power(story)
    if chance.random() < 0.02:
        story.tell("(a torn tail)")
        held = story.world.files.get("J", b"")
        story.write("J", held + chance.choice((b"page 3 FF0", b"und", b"open", b"x" * 40, b"stmjour", bytes(7))))
    if chance.random() < 0.02:
        rot(story)
    if chance.random() < 0.04 and journal is not None and journal.number == story.kind.number:
        run_program(story, journal)
    if chance.random() < 0.02:
        spoil(story)


def lose_power(story):
    """The device loses its power, it may be inside an erase or a write: it is reset, and pages that the unfinished newest segment keeps hold any bytes."""
    chance, name, journal = story.chance, story.home, story.journal()
    chip = story.chips[name]
    risked = journal.risked_pages() if journal is not None else []
    lost = [page for page in risked if page < chip.pages() and chance.random() < 0.7]
    held = bytearray(story.flash(name))
    for page in lost:
        part, kind = chip.part(page), chance.randrange(3)
        held[part] = chance.randbytes(chip.sizes[page]) if kind == 0 else bytes([chip.erased]) * chip.sizes[page] if kind == 2 else bytes(
            byte & chance.randrange(256) for byte in held[part])
    story.tell("(%s without power, pages %s)" % (name, lost))
    story.counts["without power"] += name + ".line" in story.world.files
    story.counts["pages lost"] += len(lost)
    if lost:
        story.write(name, bytes(held))
    story.remove(name + ".line")


def rot(story):
    """The disk changes a digit of a page that the journal keeps. Where its CRC stands behind it, no undo may give that back."""
    chance, text = story.chance, story.world.files.get("J", b"")
    pages = list(re.finditer(rb"(?m)^page [0-9]+ ([0-9A-F]+)$(\ncrc ........!$)?", text))
    if not pages:
        return
    page = chance.choice(pages)
    at = chance.randrange(page.start(1), page.end(1))
    other = chance.choice([digit for digit in b"0123456789ABCDEF" if digit != text[at]])
    story.tell("(digit %d of the journal rots)" % at)
    story.counts["rotted"] += 1
    story.write("J", text[:at] + bytes([other]) + text[at + 1:])
    if page[2] is None:
        story.before = None


def run_program(story, journal):
    """The board's program runs, and changes a byte of a page that the journal keeps: what an undo without --trust-journal passes by."""
    chip = story.chips[story.home]
    pages = [kept.page for segment in journal.stack for kept in segment.kept if kept.page < chip.pages()]
    if pages:
        part = chip.part(story.chance.choice(pages))
        story.counts["changed"] += 1
        story.tell("(a byte is changed from %d on)" % part.start)
        story.before = None
        change(story, range(part.start, part.stop))


def change(story, places):
    """A byte of the flash at one of these places is another one."""
    held = bytearray(story.flash(story.home))
    held[story.chance.choice(places)] ^= 0x55
    story.write(story.home, bytes(held))


def spoil(story):
    chance, name, text = story.chance, story.home, story.world.files.get("J", b"")
    kind = chance.randrange(5)
    story.tell("(meddled with, %d)" % kind)
    story.before = None
    if kind == 0:
        story.remove("J")
    elif kind == 1:
        story.write("J", text + b"a bad line\n")
    elif kind == 2 and text:
        story.write("J", text[:chance.randrange(len(text))])
    elif kind == 3:
        change(story, range(len(story.flash(name))))
    else:
        line = beginnings.draw_line(chance, story.chips[name])
        story.remove(name + ".line") if line is None else story.write(name + ".line", line)
