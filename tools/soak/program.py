"""The program as docs/INSIDE.md tells it: files in, files, output and an exit status out."""

import contextlib
import re

from device import CONNECT, CONNECTED, FRESH, GO, GONE, PROTECTIONS, Device
from image import ImageFault, crc, read_hex, read_raw, write_hex
from journal import BadLine, Journal, is_no_journal, left
import session
from session import Erase, Fault, Read, Verify, Write
from use import Use
import wire
from wire import Rig, Stopped, WireFault

KINDS = dict(zip(("write-unprotect", "readout-protect", "readout-unprotect"), PROTECTIONS))
MOST_AGAIN = 1000
OTHER_BOARD = "device is another board"
NO_BOARD = "device tells no board"


class Usage(Exception):
    pass


class World:
    """The files that the program reads and writes, by their names, and what the table says."""

    def __init__(self, table, files):
        self.table = table
        self.files = files
        # what is told of the last use on standard error, if all of it was done
        self.note = b""

    def copy(self):
        return World(self.table, dict(self.files))

    def chip_of(self, number, name):
        """The chip of the simulator whose flash has this name."""
        chip = session.find(self.table, number)
        text = self.files.get(name + ".board")
        if text is None:
            return chip.without_places()
        board = read_board(text)
        if board is None:
            raise Fault("bad simulator file %s.board" % name)
        return chip.of_board(*board)

    def device(self, use):
        name = use.file
        chip = self.chip_of(int(use.number, 16), name)
        flash = self.files.get(name, bytes([chip.erased]) * chip.size)
        if len(flash) != chip.size:
            raise Fault("bad simulator file %s" % name)
        device = Device(chip, flash)
        if not stand(device, self.files.get(name + ".line", b"fresh\n")):
            raise Fault("bad simulator file %s" % name)
        return device

    def ask(self, rig, use):
        """Which board the device is, or None where it isn't asked."""
        leaves, chip = use.name in ("go", "protect"), session.find(self.table, int(use.number, 16))
        is_told = chip.unique_at is not None or chip.size_at is not None
        if use.no_board or not is_told and not (leaves and use.board is None):
            if use.board is not None:
                raise Fault(NO_BOARD)
            return None
        journal = session.load(rig)
        if leaves and journal.depth() > 0:
            raise Fault(session.IN_SESSION)
        if use.name != "undo" and journal.is_unfinished():
            raise Fault(session.UNFINISHED)
        if use.name == "undo" and journal.depth() == 0 or leaves and journal.unique is None and use.board is None:
            return None
        board = session.ask_board(rig, self.table)
        if use.board is not None and not (board.unique and board.unique.hex().endswith(use.board.lower())):
            raise Fault(OTHER_BOARD if board.unique else NO_BOARD)
        if leaves and journal.is_of_other(board.unique):
            raise Fault(session.OTHER_BOARD)
        return board

    def run(self, use):
        """The exit status, standard output, standard error, and the rig of the first session, where there was one."""
        try:
            check_words(use)
            image = read_images(use, self.files.get("I"))
            # the journal is moved to a name that isn't there yet, none of the others, and can be made
            if use.to is not None and (use.to in self.files or use.to in others(use.file) or "/" in use.to):
                raise Fault("cannot write %s" % use.to)
            if use.again is not None:
                return self.run_again(use, image)
            lines, fault, rig = self.once(use, image)
        except FAULTS as failed:
            lines, fault, rig = [], failed, None
        return told(lines, fault, b"", self.note), rig

    def once(self, use, image):
        """One session, and what follows it: the lines of what was done, the fault or none, and the rig or none."""
        rig, lines, self.note = None, [], b""
        try:
            session.find(self.table, int(use.number, 16))
            # what is no journal is refused, and the simulator's files aren't looked at then
            journal = self.journal_text()
            rig = Rig(self.device(use), journal, use.stop)
            # the pages that an undo is to give back are as they were kept; what else is the matter with the journal is told behind it
            with contextlib.suppress(BadLine):
                kept = Journal(rig.journal)
                if use.name == "undo" and not use.trusts and (found := kept.damaged(count_of(kept, use))):
                    raise Fault(session.DAMAGED % found)
            board = self.ask(rig, use)
            table = self.table if board is None else board.table(self.table)
            before = session.load(rig).stack if use.name == "undo" else []
            lines.append(do(rig, table, use, image, self.files))
            self.note = note(use, lines[0], before, "J" in self.files)
            if use.name == "info":
                lines.append(b"" if board is None else tell_board(board, session.find(table, board.number)))
                real, simulated = session.find(table, int(use.number, 16)).tried()
                # last, of a chip whose entry has the key
                told_of = b"tried on %s board%s\n" % (b"%d" % real if real else b"no", b"s" if real > 1 else b"" if real else b" yet")
                lines.append(told_of if real + simulated else b"")
            # behind a segment that has ended is what each page that it keeps holds now, in a journal that names its board: no step
            if use.name in ("write", "erase") and (journal := session.load(rig)).version == 3:
                for kept in journal.stack[-1].kept:
                    rig.journal += left(kept.page, bytes(rig.device.flash[rig.device.chip.part(kept.page)])) + b"\n"
            if use.keeps():
                # the journal is removed, or moved; that is no step
                lines.append(b"kept %d\n" % session.load(rig).depth())
                self.files |= {} if use.to is None else {use.to: bytes(rig.journal)}
                self.files.pop("J", None)
                rig.journal.clear()
            if use.go is not None:
                session.leave(rig, wire.go, use.go)
            fault = None
        except FAULTS as failed:
            fault = failed
        if rig is not None:
            self.files |= {use.file: bytes(rig.device.flash), use.file + ".line": standing(rig.device)}
            self.files |= {"J": bytes(rig.journal)} if rig.journal else {}
        return lines, fault, rig

    def journal_text(self):
        text = self.files.get("J", b"")
        if is_no_journal(text):
            raise Fault("J is no journal: name another, or move it away")
        return text

    def standing(self):
        """How many segments the journal's file has, and whether the newest is unfinished."""
        journal = session.load(Rig(None, self.journal_text()))
        return journal.depth(), journal.is_unfinished()

    def run_again(self, use, image):
        """A write that is broken off is undone and done again, each time in a session of its own."""
        before, _ = self.standing()
        err = b""
        lines, fault, rig = self.once(use, image)
        for turn in range(use.again):
            if lines or not isinstance(fault, WireFault):
                break
            why, count, stays, back = text(fault), max(self.standing()[0] - before, 0), None, b"nothing was begun"
            if count > 0:
                undo = {name: getattr(use, name) for name in ("number", "stop", "file", "board", "no_board", "trusts")}
                _, stays, _ = self.once(Use("undo", count=count, **undo), None)
                back = b"undone" if stays is None else b"not undone: " + text(stays)
            err += b"again %d of %d: %s; %s\n" % (turn + 1, use.again, why, back)
            lines, fault, _ = self.once(use, image) if stays is None else ([], stays, None)
        if fault is not None and not lines:
            err += stands(before, *self.standing())
        return told(lines, fault, err, self.note), rig


FAULTS = (Usage, Stopped, WireFault, Fault, ImageFault)


def text(fault):
    """The program's words for a fault."""
    told = {Usage: "usage: %s" % fault, Stopped: "stopped", WireFault: session.DEVICE}
    return told.get(type(fault), str(fault)).encode()


def told(lines, fault, err, note):
    status = 0 if fault is None else 2 if isinstance(fault, Usage) else 3 if isinstance(fault, Stopped) else 1
    return status, b"".join(lines), err + (b"stmflash: %s\n" % text(fault) if status else note)


def note(use, line, before, is_there):
    """What is told of a use beside its line, where it changed nothing; an undo found these segments, in a journal that is there or isn't."""
    found = re.match(rb"segment ([0-9]+): 0 pages ", line)
    if found and not use.keeps():
        return b"note: segment %s changed nothing: there is nothing new to undo\n" % found[1]
    if use.name != "undo":
        return b""
    if not is_there:
        return b"note: journal J isn't there\n"
    left = len(before) - int(line.split()[1])
    unchanged = [b"%d" % (left + k) for k, segment in enumerate(before[left:], 1) if not segment.kept]
    many = b"s" if len(unchanged) > 1 else b""
    told = b"note: segment%s %s had changed nothing; %d more can be undone\n" % (many, b", ".join(unchanged), left)
    return told if unchanged else b""


def stands(before, depth, is_unfinished):
    if depth > before + 1:
        end = b"of which %d is unfinished, undo first" % depth if is_unfinished else b"which can be undone"
        return b"stands: segments %d-%d, %s\n" % (before + 1, depth, end)
    one = b"segment %d" % depth + (b" is unfinished, undo first" if is_unfinished else b", which can be undone")
    return b"stands: %s\n" % (one if is_unfinished or depth > before else b"nothing of this write")


def others(name):
    """The names that no journal is moved to, also where no file has them."""
    return "T", "I", "J", name, name + ".line", name + ".board"


def read_board(text):
    """What a simulator's file says of its board: its unique id or no byte, and how many KiB its flash has, or None. None where it says something else."""
    if len(text) > 256:
        return None
    unique, kib = b"", None
    for line in text.split(b"\n"):
        found = re.fullmatch(rb"unique ((?:[0-9A-Fa-f]{2}){8,32})|size ([0-9]{1,5})", line)
        if found is None and line:
            return None
        if line.startswith(b"unique"):
            unique = bytes.fromhex(found[1].decode())
        elif line:
            kib = int(found[2])
    return unique, kib


def stand(device, line):
    """Brings a fresh device to where the line says that it stood. Whether it can stand there."""
    if line == b"fresh\n":
        return True
    found = re.fullmatch(rb"(?:idle|gone|rest ((?:[0-9A-F]{2})+))\n", line)
    if not found:
        return False
    is_gone, before = line == b"gone\n", bytes(device.flash)
    rest = bytes(wire.pair(GO) + wire.placed(device.chip.base)) if is_gone else bytes.fromhex((found[1] or b"").decode())
    for byte in (CONNECT, *rest):
        device.feed(byte)
    device.owed.clear()
    return is_gone or device.phase == CONNECTED and device.rest == rest and device.flash == before


def standing(device):
    if device.phase in (FRESH, GONE):
        return b"%s\n" % device.phase.encode()
    return b"rest %s\n" % device.rest.hex().upper().encode() if device.rest else b"idle\n"


def check_words(use):
    for text, is_so in (
            ("bad board %s" % use.board, use.board is not None and not re.fullmatch("[0-9A-Fa-f]{1,64}", use.board)),
            ("give --board or --no-board, not both", use.board is not None and use.no_board),
            ("give pages or --all", use.name == "erase" and bool(use.pages) == use.all),
            ("bad number %s" % use.again, use.again is not None and not 1 <= use.again <= MOST_AGAIN),
            ("--go needs --keep or --keep-to", use.go is not None and not use.keeps()),
            ("--skip-blank needs HEX", use.skip_blank and not use.is_hex()),
            ("%s is not whole words of 4 bytes" % (use.range and use.range_word()),
             use.name == "crc" and use.range is not None and (use.range[0] % 4 or (use.range[1] or 0) % 4))):
        if is_so:
            raise Usage(text)


def read_images(use, text):
    """The image, or the raw bytes whose start isn't known yet. Two are one, unless they differ."""
    if use.image is None:
        return None
    if text is None:
        raise Fault("cannot read I")
    if use.second is None:
        return read_image(text, use.force, use.range)
    start, data = use.second
    image = read_named("I", text, use.force, use.range)
    for address, byte in sorted(read_named("K", data, use.force, (start, None)).items()):
        if image.setdefault(address, byte) != byte:
            raise Fault("images I and K differ at %08X" % address)
    return image


def read_named(name, text, force, place):
    """One of several images, which a fault names."""
    try:
        return read_image(text, force, place)
    except Usage as fault:
        raise Usage("%s: %s is HEX" % (fault, name)) from fault
    except (Fault, ImageFault) as fault:
        raise type(fault)("%s, in %s" % (fault, name)) from fault


def read_image(text, force, place):
    if text.startswith(b":") and not force:
        if place is not None:
            raise Usage("-S needs a raw image")
        return read_hex(text)
    if place is None:
        return text
    start, length = place
    image = read_raw(text, start)
    if length is not None and length < len(text):
        raise Fault(session.OUT_OF_FLASH)
    return image


def tell(chip, version, codes):
    """What `info` prints."""
    return ("id %04X\nbase %08X\npages %d\nsize %d\nerase %02X\nerased %02X\nversion %02X\ncodes %s\n" % (
        chip.number, chip.base, chip.pages(), chip.size, chip.erase_code(), chip.erased, version,
        " ".join("%02X" % code for code in codes))).encode()


def tell_board(board, chip):
    """What `info` prints behind that, where the device was asked."""
    size = 1024 * (board.kib or 0)
    beside = b", more than the pages" if size > chip.size else b", less than the pages" if size < chip.size else b""
    return (b"board %s\n" % board.unique.hex().upper().encode() if board.unique else b"") + (
        b"" if board.kib is None else b"flash %d KiB%s\n" % (board.kib, beside))


def do(rig, table, use, image, files):
    """What is printed."""
    if use.name == "info":
        return tell(*session.info(rig, table))
    if use.name == "read":
        start, data, erased = read(rig, table, use)
        files[use.out] = write_hex(read_raw(data, start), erased if use.skip_blank else None) if use.is_hex() else data
        return b""
    if use.name == "crc":
        return b"crc %08X\n" % crc(read(rig, table, use)[1])
    if use.name in ("write", "verify"):
        return use_image(rig, table, use, image)
    if use.name == "erase":
        pages = range(session.info(rig, table)[0].pages()) if use.all else use.pages
        segment, count = session.run(rig, table, Erase(pages))
        return b"segment %d: %d pages erased\n" % (segment, count)
    if use.name == "undo":
        return b"undone %d\n" % session.undo(rig, table, count_of(session.load(rig), use), use.trusts)
    session.leave(rig, *((wire.go, use.address) if use.name == "go" else (wire.protect, KINDS[use.kind])))
    return b""


def count_of(journal, use):
    return session.to_change(journal) if use.to_change else use.count or 0


def read(rig, table, use):
    """Where the part begins, its bytes, and what an erased place holds where `info` told it."""
    start, length = use.range or (None, None)
    chip = session.info(rig, table)[0] if length is None or use.name == "read" and use.is_hex() else None
    if length is None:
        start = chip.base if start is None else start
        if not chip.has(start, 1):
            raise Fault(session.OUT_OF_FLASH)
        length = chip.base + chip.size - start
    return start, session.run(rig, table, Read(start, length)), chip and chip.erased


def use_image(rig, table, use, image):
    if isinstance(image, bytes):
        image = read_raw(image, session.info(rig, table)[0].base)
    if use.name == "verify":
        session.run(rig, table, Verify(image))
        return b"verified %d bytes\n" % len(image)
    if not use.verify:
        return b"segment %d: %d pages written\n" % session.run(rig, table, Write(image))
    segment, count, again = session.write_and_verify(rig, table, image)
    seen = b"" if again == len(image) else b", %d of them again" % again
    return b"segment %d: %d pages written\nverified %d bytes%s\n" % (segment, count, len(image), seen)
