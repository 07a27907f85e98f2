"""Rows that ask the board who it is, and how it refuses. None of them changes anything."""

import time

from board import told
from faults import Differs, NotTried, Odd, Refused
from model import ACK, CONNECT, ERASE, EXTENDED_ERASE, GET, GET_ID, GET_VERSION, NACK, NEVER, READ, WRITE, Model
from row import NOTE, OPTION, row

# how often each question is asked
TIMES = 10
# so many 7F a board may take that is connected, or fresh, or was left inside a question
CONTACTS = 12
# batches as long as those of settling, of a byte that is no code: one of 256 bytes, one of 1,024, and later ones of 7,168
BATCHES, NO_CODE = (256, 1024) + (7168,) * 2, 0x55
NO_FRESH = "no --fresh (env -u STMFLASH_FRESH)"


@row("quiet", "nothing comes unasked", "what a device owes (`IsReady`)", "settling drains it; where it goes on, other rows differ", NOTE)
def quiet(board):
    came = board.line.read(4096, 0.3, 0.3)
    if came:
        raise Differs(f"{told(came)} came unasked")


@row("contact", "7F brings one 79 where the board is fresh; two 7F bring one 1F where it is connected",
     "phase fresh; verdict of `c x`", "no session begins; of two 79 for one 7F a session takes both", OPTION)
def contact(board):
    odds, was = [], "connected"
    for number in range(1, CONTACTS + 1):
        board.line.write(bytes([CONNECT]))
        came = board.line.read(1, max(2 if number == 1 else 1, board.wait), 1)
        came += board.drain() if came else b""
        if came == bytes([NACK]):
            board.was_contacted = True
            if len(odds) == 1 and board.greeting == bytes([ACK, ACK]):
                raise Odd(odds[0])
            if odds:
                board.options["fresh"] = NO_FRESH
                raise Differs(odds[0])
            return f"{was}, refused the 7F number {number}"
        if came == bytes([ACK]) and number == 1:
            was = "fresh"
        elif came:
            odds.append(f"7F number {number} is answered {told(came)}")
            if number == 1 and set(came) == {ACK}:
                was, board.greeting = "fresh", came
    if odds or was == "fresh":
        board.refusal = "no session begins"
        raise Differs(odds[0] if odds else "7F was acknowledged, and two further 7F aren't refused")
    board.refusal = "nothing answers: reset it into its bootloader (BOOT0 high); are RX and TX crossed, is the parity even?"
    raise Differs("no answer")


@row("get", "Get brings a count, a version, so many codes and 79; 00, 02, 11, 31 and one of 43 and 44 among them, and not 7F; "
     "each time the same", "the list of codes; Get", "`no erase command`, or no session")
def get(board):
    lists = set()
    for _ in range(TIMES):
        board.line.write(bytes([GET, GET ^ 0xFF]))
        begun = time.monotonic()
        came = board.line.read(2, 5, 1)
        board.note_time("get", time.monotonic() - begun)
        came += board.line.read(came[1] + 2, 1, 1) if len(came) == 2 else b""
        more = board.drain()
        # who answers late each time is waited for longer
        board.wait = max(board.wait, 3 * min(board.times["get"]))
        if len(came) < 4 or len(came) != came[1] + 4 or came[0] != ACK or came[-1] != ACK or more:
            raise Differs(f"Get is answered by {len(came) + len(more)} bytes: {told(came + more)}")
        lists.add(came)
    board.version, board.codes = came[2], list(came[3:-1])
    listed = " ".join(f"{code:02X}" for code in board.codes)
    erases = {ERASE, EXTENDED_ERASE} & set(board.codes)
    if len(lists) > 1 or not {GET, GET_ID, READ, WRITE} <= set(board.codes) or CONNECT in board.codes or len(erases) != 1:
        raise Differs(f"{len(lists)} lists of codes, the last {listed}")
    board.facts.update(version=board.version, codes=board.codes)
    return f"version {board.version:02X}, codes {listed}"


@row("id", "Get ID brings 79, 01, two bytes and 79; each time the same, and the table has that chip, with that erase",
     "Get ID; the table has the device's chip", "no session; another chip's pages")
def identify(board):
    numbers = set()
    for _ in range(TIMES):
        board.line.write(bytes([GET_ID, GET_ID ^ 0xFF]))
        came = board.line.read(5, 5, 1)
        came += board.drain()
        if len(came) != 5 or came[:2] != bytes([ACK, 1]) or came[4] != ACK:
            raise Differs(f"Get ID is answered by {len(came)} bytes, where 5 are due: {told(came)}")
        numbers.add(int.from_bytes(came[2:4], "big"))
    number = numbers.pop()
    if numbers:
        raise Differs("each time another id")
    board.facts["id"] = number
    chip = next((chip for chip in board.words.chips if chip["id"] == number), None)
    if chip is None:
        raise Differs(f"id {number:04X} isn't in the table")
    code = {"page": ERASE, "extended": EXTENDED_ERASE}[chip["erase"]]
    if code not in board.codes:
        raise Differs(f"the table says that {code:02X} erases, and the board doesn't list it")
    model = Model(number, chip, board.version, board.codes)
    board.words.pages = choose_pages(board.words.pages, len(model.sizes))
    board.model, board.code, board.page, board.other = model, code, board.words.pages[-1], board.words.pages[0]
    board.facts["pages"] = board.words.pages
    return f"{number:04X}, {len(model.sizes)} pages"


def choose_pages(named, count):
    """The pages to work on: those that were named, or the last two. The byte of page 255 is FF, which means everything."""
    if any(page >= count or page == 255 for page in named):
        raise Refused(f"--pages: this chip has no such page; give 0 to {count - 1}, but for 255")
    return named or [page for page in range(max(0, count - 3), count) if page != 255][-2:]


@row("get-version", "Get Version, where it is listed, brings three bytes between two 79", "nothing: stmflash doesn't send it", "nothing", NOTE)
def get_version(board):
    if GET_VERSION not in board.codes:
        raise NotTried("01 isn't listed")
    board.talk("version", [GET_VERSION, GET_VERSION ^ 0xFF])


@row("settle-7f", "when nothing is begun 7F stays without an answer, and a second one brings one 1F", "settling's third step",
     "a 7F that is refused at once ends a settling as well", NOTE)
def settle_by_7f(board):
    for _ in range(5):
        board.talk("7F", [CONNECT])
        board.talk("refusal", [CONNECT])
        board.hush()


@row("refuse-address", "a wrong check of an address is refused at once, by Read and by Write", "verdict of an address", "a garbled address is used")
def refuse_address(board):
    for code in (READ, WRITE):
        for bit in range(8):
            board.step(code)
            board.talk("refusal", board.address(board.model.starts[board.page], 1 << bit), 2)
    board.hush()


@row("refuse-count", "a wrong complement of Read's count is refused", "verdict of Read Memory", "another number of bytes is sent")
def refuse_count(board):
    for count in (0, 15, 255):
        board.step(READ)
        board.talk("address", board.address(0))
        board.talk("refusal", [count, count], 2)
    board.hush()


@row("loss-up", "of 15,616 bytes sent in batches of 256 to 7,168 each is taken", "the line; settling's batches", "commands are garbled")
def loss_up(board):
    for number, size in enumerate(BATCHES, 1):
        board.put([NO_CODE] * size)
        came = board.line.read(size // 2, 5, max(board.wait, 2))
        if came != bytes([NACK]) * (size // 2):
            board.refusal = board.harm = "bytes are lost: a lower --baud, another cable or adapter, and try again"
            raise Differs(f"batch {number}: {size // 2} times 1F are due, and {len(came)} bytes came")


@row("refuse-complement", "a code whose complement has one wrong bit is refused", "verdict of `c x`", "a garbled byte runs a command",
     intent="erase", changes="page P, where it differs")
def refuse_complement(board):
    for code in (GET, GET_ID, READ, WRITE, board.code):
        for bit in range(8):
            board.talk("refusal", [code, code ^ 0xFF ^ 1 << bit], 2)
    board.hush()


@row("refuse-pair", "a byte twice is refused: each byte but 7F and the codes of Go and the protections", "settling: b is never ~b",
     "settling runs a command", intent="erase", changes="page P, where it differs")
def refuse_pair(board):
    # a 7F may be refused alone, which settle-7f tells
    for byte in range(256):
        if byte not in NEVER and byte != CONNECT:
            board.talk("refusal", [byte, byte], 2)
    board.hush()


@row("pause", "a frame that pauses for --pause seconds goes on where it was", "the rest has no clock",
     "a frame is cut by a host's pause, and its data are read as commands")
def pause(board):
    body = board.address(0)
    for cut in (0, 1, 4):
        if cut:
            board.step(READ)
        first, later = (body[:cut], body[cut:]) if cut else ([READ], [READ ^ 0xFF])
        board.put(first)
        time.sleep(board.words.pause)
        board.talk("after a pause", later, 2)
        if not cut:
            board.talk("address", body)
        board.talk("read", [0, 255])
