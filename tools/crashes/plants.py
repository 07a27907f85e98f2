"""Faults of a program that crashes have to find: the record is broken as a program with the fault would have made it."""

import copy

from record import Event

# how many sendings a sync may come behind
LATE = 2


def without(kind):
    """Files, or folders, aren't synced."""
    return lambda events: [event for event in events if event.kind != kind]


def late_sync(events):
    """A file is synced once two more sendings have gone out: in the background, while the program goes on."""
    found, late, sent = [], [], 0
    for event in events:
        if event.kind == "sync":
            late.append((event, sent + LATE))
            continue
        found.append(event)
        sent += event.kind == "send"
        found += [event for event, due in late if due == sent]
        late = [waiting for waiting in late if waiting[1] > sent]
    return found + [event for event, _ in late]


def early_lf(events):
    """What is added to a file once a beginning without an LF is synced, is added with it, in one write."""
    found = []
    for event in events:
        if event.kind == "write" and [one.kind for one in found[-2:]] == ["write", "sync"]:
            number, at, data = found[-2].words
            if event.words[:2] == (number, at + len(data)) and not data.endswith(b"\n"):
                found[-2] = Event("write", number, at, data + event.words[2], received=found[-2].received)
                found.pop()
                continue
        found.append(event)
    return found


# what another program's lock does, which no record shows: race.py has it ignored
NO_LOCK = "no-lock"
PLANTS = {"no-sync": without("sync"), "late-sync": late_sync, "early-lf": early_lf, "no-folder-sync": without("sync folder")}


def planted(name, stories):
    """The sessions as a program with this fault would have done them."""
    found = [copy.copy(story) for story in stories] if name in PLANTS else []
    for story in found:
        story.events = PLANTS[name](story.events)
        story.note()
    return found or stories
