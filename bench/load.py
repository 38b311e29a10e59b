#!/usr/bin/env python3
"""Loads for measuring slotdesk, written to standard output.

    bench/load.py NAME [SIZE] > FILE

NAME is one of
  day      SIZE flights of a European day at 64 regulations, with delays, modifications, cancellations and departures,
           and the desk's time set every minute
  chains   SIZE flights at one regulation at departure, filed from the last entry to the first, so that each displaces all
  text     SIZE long flight plans, of which the first 20,000 are accepted
  journal  SIZE short filings: times, refused orders and messages, delays
  openings SIZE flights, and then 64 regulations of their departure
  reopened a regulation of the departure of 5,000 flights, opened and shut SIZE times
  delays   SIZE flights at 64 regulations of one place, and a delay of each
  toandfro one flight whose destination is amended SIZE times, to and fro between two places
  onward   one flight whose destination is amended SIZE times, each time to another place
  again    one flight that is filed and cancelled SIZE times
  visits   SIZE flights of one identification, each of which is amended to one destination and back
  feeders  SIZE flights at 64 regulations, each filed, delayed and departed or cancelled by one of 64 feeders, to whom the filings
           are dealt in turn; so they are by one of 2, 4, 8, 16 or 32 feeders, too
The same name and size always give the same bytes. Run the program with --start 2409010000 --plans 20000.
"""
import datetime
import random
import sys

SIZES = {"day": 20_000, "chains": 20_000, "text": 200_000, "journal": 1_000_000,
         "openings": 20_000, "reopened": 2_000, "delays": 2_000,
         "toandfro": 60_000, "onward": 60_000, "again": 20_000, "visits": 10_000, "feeders": 20_000}
MIDNIGHT = datetime.datetime(2024, 9, 1)
AERODROMES = "EGLL LFPG EHAM EDDF LEMD EDDM LEBL LIRF EGKK LSZH EKCH LOWW ENGM ESSA EIDW EBBR LIMC EDDL EFHK LPPT".split()
SECTORS = "EGTT EISN LFFF LFEE LFMM LFBB EBUR EHAA EDGG EDMM EDWW EDUU EDYY EKDK ESAA LKAA LOVV LSAS LIMM LIRR".split()
POINTS = "ABESI DODOX ODINA KORED LIMRI RAPOR ERIKO SULUS TOPTA BEGAR MOROK DINKU GONUT UNKUL KELIP LABIL".split()
AIRWAYS = "UL9 UN857 UM164 UL607 UZ738 Y163 T281 Q237".split()


def stamp(minute):
    return (MIDNIGHT + datetime.timedelta(minutes=minute)).strftime("%y%m%d%H%M")


def clock(minute):
    return "%02d%02d" % (minute % 1440 // 60, minute % 60)


def flight_plan(rng, number, off_block, words):
    start, end = rng.sample(AERODROMES, 2)
    elapsed = rng.randrange(45, 240)
    route = " ".join(rng.choice(POINTS) + " " + rng.choice(AIRWAYS) for _ in range(words))
    crossed = sorted((rng.randrange(5, elapsed), name) for name in rng.sample(SECTORS, rng.randrange(1, 8)))
    estimates = " ".join("%s%s" % (name, clock(at)) for at, name in crossed)
    ident = "TST%d%s" % (number % 1000, "ABCDEFGHJKLMNPRSTUVWXYZ"[number // 1000 % 23])
    text = "(FPL-%s-IS-A320/M-SDE2FGIRWY/LB1-%s%s-N0450F350 %s %s-%s%s-PBN/B1D1 EET/%s DOF/240901 RMK/TCAS)" % (
        ident, start, clock(off_block), route, rng.choice(POINTS), end, clock(elapsed), estimates)
    return ident, start, end, text


def day(size):
    rng = random.Random(1)
    events = []
    for number in range(size):
        off_block = rng.randrange(60, 1380)
        ident, start, end, text = flight_plan(rng, number, off_block, 8)
        filed = max(0, off_block - rng.randrange(60, 900))
        events.append((filed, 1, text))
        head = "%s-%s%s-%s" % (ident, start, clock(off_block), end)
        lot = rng.random()
        if lot < 0.05:
            events.append((rng.randrange(filed, off_block), 2, "(CNL-%s-DOF/240901)" % head))
        elif lot < 0.2:
            later = "%s-%s%s-%s" % (ident, start, clock(off_block + rng.randrange(1, 40)), end)
            events.append((rng.randrange(filed, off_block), 2, "(DLA-%s-DOF/240901)" % later))
        elif lot < 0.7:
            left = "%s-%s%s-%s" % (ident, start, clock(off_block + rng.randrange(5, 25)), end)
            events.append((off_block, 3, "(DEP-%s-DOF/240901)" % left))
    for number in range(64):
        opened = rng.randrange(0, 900)
        place = "VIA " + rng.choice(SECTORS) if number % 2 else "ARR " + rng.choice(AERODROMES)
        name = "R%d" % number
        events.append((opened, 0, "OPEN %s %s %s %s %d" % (name, place, stamp(opened + 120), stamp(opened + 360), rng.randrange(24, 120))))
        events.append((opened + 400, 4, "SHUT " + name))
    events += [(minute, 5, "TIME " + stamp(minute)) for minute in range(1440)]
    events.sort(key=lambda event: event[:2])
    return (text for _, _, text in events)


def chains(size):
    yield "OPEN RCHAIN DEP LIML %s %s 240" % (stamp(130), stamp(130 + 1440))
    for number in reversed(range(size)):
        off_block = 121 + number * 1440 // size
        day = 1 + off_block // 1440
        yield "(FPL-C%d-IS-A320/M-S/L-LIML%s-N0450F350 DCT-EDDF0100-DOF/2409%02d)" % (number, clock(off_block), day)


def text(size):
    rng = random.Random(2)
    return (flight_plan(rng, number, rng.randrange(0, 1440), 90)[3] for number in range(size))


def journal(size):
    rng = random.Random(3)
    yield "(FPL-AAA1-IS-A320/M-S/L-LIML0800-N0450F350 DCT-EDDF0150-0)"
    for number in range(size - 1):
        yield rng.choice([
            "TIME " + stamp(number // 4000), "SHUT R%d" % (number % 1000), "TIME 2408010000",
            "(CNL-AAA2-LIML0800-EDDF)", "(CNL-AAA12345-LIML0800-EDDF)", "(DLA-AAA1-LIML0800-EDDF)",
        ])


def departure(number, off_block):
    return "(FPL-C%d-IS-A320/M-S/L-LIML%s-N0450F350 DCT-EDDF0100-DOF/240901)" % (number, clock(off_block))


def opening(number, rate):
    return "OPEN R%d DEP LIML %s %s %d" % (number, stamp(120), stamp(1440), rate)


def off_blocks(seed, size):
    rng = random.Random(seed)
    return [rng.randrange(130, 1400) for _ in range(size)]


def openings(size):
    yield from map(departure, range(size), off_blocks(4, size))
    yield from (opening(number, 20 + number) for number in range(64))


def reopened(size):
    yield from map(departure, range(5_000), off_blocks(5, 5_000))
    for _ in range(size):
        yield opening(0, 60)
        yield "SHUT R0"


def delays(size):
    filed = off_blocks(6, size)
    yield from (opening(number, 240) for number in range(64))
    yield from map(departure, range(size), filed)
    for number, off_block in enumerate(filed):
        yield "(DLA-C%d-LIML%s-EDDF-DOF/240901)" % (number, clock(off_block + 1 + number % 30))


def filed(ident, start, end):
    return "(FPL-%s-IS-A320/M-S/L-%s0800-N0450F350 DCT-%s0150-0)" % (ident, start, end)


def amended(ident, start, end, later):
    return "(CHG-%s-%s0800-%s-16/%s0150)" % (ident, start, end, later)


def place(number):
    return "".join(chr(ord("A") + number // 26 ** at % 26) for at in (3, 2, 1, 0))


def toandfro(size):
    yield filed("AAA1", "LIML", "EDDF")
    for number in range(size):
        ends = ("EDDF", "EDDN") if number % 2 == 0 else ("EDDN", "EDDF")
        yield amended("AAA1", "LIML", *ends)


def onward(size):
    yield filed("AAA1", "LIML", place(0))
    for number in range(size):
        yield amended("AAA1", "LIML", place(number), place(number + 1))


def again(size):
    for _ in range(size):
        yield filed("AAA1", "LIML", "EDDF")
        yield "(CNL-AAA1-LIML0800-EDDF)"


def visits(size):
    for number in range(size):
        yield filed("AAA1", "LIML", place(number))
    for number in range(size):
        yield amended("AAA1", "LIML", place(number), "EDDF")
        yield amended("AAA1", "LIML", "EDDF", place(number))


def feeder_day(size):
    """The filings of 64 feeders, each with its minute. Time goes to 05:30 and no flight leaves before, so that no feeder that runs
    ahead makes the filing of another late."""
    rng = random.Random(7)
    queues = [[] for _ in range(64)]
    for number in range(size):
        off_block = rng.randrange(335, 450) if rng.random() < 0.66 else rng.randrange(335, 1300)
        ident, start, end, text = flight_plan(rng, number, off_block, 8)
        filed, later = rng.randrange(0, 200), off_block + rng.randrange(1, 60)
        events = [text, "(DLA-%s-%s%s-%s-DOF/240901)" % (ident, start, clock(later), end)]
        if rng.random() < 0.05:
            events.append("(CNL-%s-%s%s-%s-DOF/240901)" % (ident, start, clock(later), end))
        else:
            events.append("(DEP-%s-%s%s-%s-DOF/240901)" % (ident, start, clock(later + 12), end))
        queues[number % 64] += [(filed + 40 * at, number, event) for at, event in enumerate(events)]
    for number, queue in enumerate(queues):
        opened = rng.randrange(0, 200)
        place = "VIA " + rng.choice(SECTORS) if number % 2 else "ARR " + rng.choice(AERODROMES)
        queue.append((opened, -1, "OPEN R%d %s %s %s %d" % (number, place, stamp(350), stamp(900), rng.randrange(24, 120))))
        queue.append((opened + rng.randrange(60, 300), -1, "SHUT R%d" % number))
    queues[0] += [(minute, -2, "TIME " + stamp(minute)) for minute in range(10, 331, 10)]
    return queues


def feeders(size):
    queues = [sorted(queue) for queue in feeder_day(size)]
    for place in range(max(map(len, queues))):
        for queue in queues:
            yield queue[place][2] if place < len(queue) else "SHUT NONE"


def main():
    name = sys.argv[1]
    size = int(sys.argv[2]) if len(sys.argv) > 2 else SIZES[name]
    loads = [day, chains, text, journal, openings, reopened, delays, toandfro, onward, again, visits, feeders]
    for filing in {load.__name__: load for load in loads}[name](size):
        sys.stdout.write(filing + "\n")


main()
