"""All rows, in the order in which they are tried."""

import rows_asking as asking
import rows_changing as changing
import rows_ending as ending
import rows_reading as reading
import rows_stopping as stopping

ROWS = (
    asking.quiet, asking.contact, asking.get, asking.identify, asking.get_version, asking.settle_by_7f, asking.refuse_address,
    asking.refuse_count, asking.loss_up,
    # where a garbled command runs, page P is at stake: the flash has to be saved before these
    reading.save, reading.read_again, asking.refuse_complement, asking.refuse_pair,
    reading.read_sizes, reading.size, reading.size_register, asking.pause, stopping.settle_ask,
    changing.erase, changing.erased_byte, changing.write, changing.erase_only, changing.ack_late, changing.write_4,
    changing.write_any, changing.write_gap, changing.refuse_write, changing.refuse_erase, changing.page_absent, changing.busy,
    stopping.settle_erase, stopping.settle_write, changing.page_map,
    stopping.reset_in_frame, stopping.fresh_other, stopping.power,
    ending.give_back, ending.reply_time, ending.erase_time,
)
NAMES = tuple(row.name for row in ROWS)
# these say what was found, and are never left out for what came before; what no row may be tried before
TOLD, BACK = (ending.reply_time, ending.erase_time), ending.give_back
CONTACT, QUIET, SAVE, ERASED_BYTE = asking.contact, asking.quiet, reading.save, changing.erased_byte
# what only some trials have: a row of these that wasn't tried doesn't make a trial less
FURTHER = (asking.get_version, reading.size_register, changing.page_map)


def table():
    """The rows as a table in Markdown."""
    lines = ["| Row | What has to hold | Rests on it | Where it differs | It means | Changes | By hand |", "|---|---|---|---|---|---|---|"]
    for row in ROWS:
        cells = (row.name, row.holds, row.rests, row.harm, row.means, row.changes, row.hand or "no")
        lines.append(f"| {' | '.join(cells)} |")
    return "\n".join(lines)
