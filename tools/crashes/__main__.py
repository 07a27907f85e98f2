"""Shows by trial what a crash of the PC leaves of a session's files, and that an undo from there gives the flash back.

    python3 tools/crashes PROGRAM [--states N] [--seed TEXT] [--only KEY] [--plant FAULT] [--plants] [--jobs N]

Which states are drawn is told in docs/GATE.md and disk.py, and what has to come of an undo from each in trial.py: how many segments the
journal has, of which `undone N` has to leave every byte of the flash as it was, is by the second model of tools/soak. What is bad is told
with a key that --only takes. Beside the states two programs come to one journal, with no crash (race.py).

--states N makes so many states, 3,000 without it, of all sessions in turn. --seed gives those that are drawn; without it one is drawn, and
printed. --plant has the record broken, as a program with that fault would have made it (plants.py). --plants does it for each fault behind
the states, until one is bad, which has to come. --jobs is how many states are tried at a time. The exit status is 1 where a state is bad,
or a fault wasn't found.
"""

import concurrent.futures
import os
import sys
import tempfile

from board import Unanswered, words_of
from disk import Misunderstood
from record import can_trace
from sessions import BehindCrash, all_stories, drawn
from story import Unrecorded
from trial import State, draw, judge, top
import plants
import race


def needed(stories, names):
    """The stories of these names, and those that they stand behind."""
    found = {name: stories[name] for name in names}
    return list((found | {story.other.name: story.other for story in found.values() if isinstance(story, BehindCrash)}).values())


def try_states(program, states, pool):
    """The keys of the states that are bad, and what is wrong there."""
    return wrong([(state.key(), pool.submit(judge, program, state)) for state in states])


def try_races(program, counts, pool, locks=True):
    """The same of two programs on one journal, where the second comes behind so many bytes of the first's line."""
    return wrong([("%s:%d" % (race.NAME, count), pool.submit(race.judge, program, count, locks)) for count in counts])


def wrong(judged):
    return [(key, text) for key, done in judged if (text := done.result()) is not None]


def states_of(stories, count, seed):
    """So many states, of all stories in turn, each once."""
    found = {}
    for number in range(20 * count if stories else 0):
        if len(found) < count:
            state = draw(stories[number % len(stories)], seed, number // len(stories))
            found.setdefault(state.key(), state)
    return list(found.values())


def main():
    given = words_of(__doc__, states=3000, plant=[*plants.PLANTS, plants.NO_LOCK], jobs=2 * len(os.sched_getaffinity(0)))
    if not can_trace():
        print("tools/crashes: left out: there is no strace here, or it can't trace")
        return 0
    stories = all_stories()
    if given.only and given.only.split(":")[0] not in (race.NAME, *stories):
        sys.exit("tools/crashes: no session has this name: %s" % given.only)
    with tempfile.TemporaryDirectory(dir=top(), prefix="crashes-") as folder, \
            concurrent.futures.ThreadPoolExecutor(given.jobs) as pool:
        try:
            return run(given, stories, pool, folder)
        except (Misunderstood, Unanswered, Unrecorded) as fault:
            print("tools/crashes: %s" % fault)
            return 1


def run(given, stories, pool, folder):
    print("tools/crashes: seed %s" % given.seed, flush=True)
    name, *key = given.only.split(":") if given.only else [None]
    counts = race.BYTES if name is None else (int(key[0]),) if name == race.NAME else ()
    chosen = needed(stories, [] if name == race.NAME else [name] if name else drawn(stories, given.seed))
    # those behind a crash of another one last
    for is_behind in (False, True):
        for begun in [pool.submit(story.record, given.program, folder) for story in chosen if isinstance(story, BehindCrash) == is_behind]:
            begun.result()
    planted = plants.planted(given.plant, chosen)
    if given.only and not counts:
        states = [State.of({story.name: story for story in planted}, given.only)]
    else:
        states = states_of(planted, given.states, given.seed)
    bad = try_races(given.program, counts, pool, locks=given.plant != plants.NO_LOCK) + try_states(given.program, states, pool)
    for key, text in bad:
        print("BAD %s: %s" % (key, text))
    missed = find_plants(given, chosen, pool) if given.plants else 0
    print("tools/crashes: %d states of %d sessions, %d bad" % (len(states) + len(counts), len(chosen) + bool(counts), len(bad)))
    return 1 if bad or missed else 0


def find_plants(given, stories, pool):
    """Plants each fault, and sees that some of the states show it: how many weren't shown."""
    missed = 0
    for fault in (*plants.PLANTS, plants.NO_LOCK):
        if fault == plants.NO_LOCK:
            bad = try_races(given.program, race.BYTES, pool, locks=False)
        else:
            states = states_of(plants.planted(fault, stories), given.states, given.seed)
            # up to the first that are bad
            bad = next(filter(None, (try_states(given.program, states[at:at + 16], pool) for at in range(0, len(states), 16))), [])
        print("tools/crashes: planted: %s: %s" % (fault, "found, BAD %s: %s" % bad[0] if bad else "NOT FOUND"), flush=True)
        missed += not bad
    return missed


if __name__ == "__main__":
    sys.exit(main())
