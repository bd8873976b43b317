#!/usr/bin/env python3
"""plainly_better.py TOUR LOG PAIRS NAME: reads pairs of histories, `HOLDS :ACTS MARKS.. :ACTS MARKS..` to a line, and counts
for how many the first is plainly better than the second, by the definition for the United States, over their minutes
alone. HOLDS tells what the planner's `covers` answers. Exits with 1 where a history is plainly better and it does not."""
import csv, datetime, json, sys
ORIGIN = datetime.datetime(2000, 1, 1)
LETTERS = {"OFF": "O", "SB": "B", "D": "D", "ON": "S"}
PADDING = 28 * 1440

def minute(text):
    return int((datetime.datetime.strptime(text, "%Y-%m-%dT%H:%M") - ORIGIN).total_seconds() // 60)

def runs(units):
    """The maximal runs of rest and of duty: (rest or not, from, to)."""
    found, at = [], 0
    for k in range(1, len(units) + 1):
        if k == len(units) or (units[k] in "OB") != (units[at] in "OB"):
            found.append((units[at] in "OB", at, k))
            at = k
    return found

def longest(units, letters):
    best = here = 0
    for unit in units:
        here = here + 1 if unit in letters else 0
        best = max(best, here)
    return best

def used(units, start, end, left_out=(0, 0)):
    part = units[start:end]
    return (part.count("D"), sum(unit not in "OB" for unit in part), len(part) - (left_out[1] - left_out[0]))

class History:
    def __init__(self, units, first, marks, days, day_start):
        units = "O" * PADDING + units
        origin = first - PADDING
        end = len(units)
        found = runs(units)
        open_run = found[-1] if found[-1][0] else (True, end, end)
        self.run = open_run[2] - open_run[1]
        self.off = "O" in units[max(PADDING, open_run[1]):]
        ended = [(a, b) for rest, a, b in found if rest and b < end]
        declared = [(a, b, b - a >= 600) for a, b in ended if b - a >= 600 or a + origin in marks]
        self.waits = bool(declared) and not declared[-1][2]
        if not declared:
            self.base = used(units, 0, end)
        elif not self.waits:
            self.base = used(units, declared[-1][1], end)
        else:
            a, b, _ = declared[-1]
            self.base = used(units, declared[-2][1] if len(declared) > 1 else 0, end, (a, b))
            self.split = (b - a, longest(units[a:b], "B"))
            self.since = used(units, b, end)
        still = 0
        while still < end and units[end - 1 - still] != "D":
            still += 1
        self.still = still
        breaks, here = 0, 0
        for k, unit in enumerate(units):
            here = 0 if unit == "D" else here + 1
            if here >= 30:
                breaks = k + 1
        self.driven = units[breaks:].count("D")
        restarts = [b for a, b in ended if b - a >= 2040]
        since = restarts[-1] if restarts else 0
        today = (origin + end - day_start) // 1440
        duty = [0] * days
        for k in range(since, end):
            age = today - (origin + k - day_start) // 1440
            if age < days and units[k] not in "OB":
                duty[age] += 1
        self.week = [sum(duty[: n + 1]) for n in range(days)]

def no_more(a, b):
    return all(x <= y for x, y in zip(a, b))

def plainly_better(h, k, berth):
    return (
        h.run >= k.run
        and not (berth and h.run > 0 and h.off)
        and no_more(h.base, k.base)
        and h.waits == k.waits
        and (not h.waits or (h.split[0] >= k.split[0] and h.split[1] >= k.split[1] and no_more(h.since, k.since)))
        and h.driven <= k.driven
        and h.still >= k.still
        and no_more(h.week, k.week)
    )

def main(tour_name, log_name, pairs_name, name):
    tour = json.load(open(tour_name))
    start, grid = minute(tour["start"]), tour["grid"]
    hours, minutes = tour["day_start"].split(":")
    day_start = int(hours) * 60 + int(minutes)
    log, first = "", start
    with open(log_name, newline="") as file:
        rows = list(csv.reader(file))[1:]
    if rows:
        first = minute(rows[0][0])
        log = "".join(LETTERS[row[2]] * (minute(row[1]) - minute(row[0])) for row in rows)
    pairs = holds = better = wrong = 0
    for line in open(pairs_name):
        words = line.split()
        if not words or words[0] not in ("true", "false"):
            continue
        sides, acts = [], None
        for word in words[1:]:
            if word.startswith(":"):
                sides.append((word[1:], set()))
            else:
                sides[-1][1].add(int(word))
        ours, theirs = (
            History(log + "".join(act * grid for act in acts), first, marks, tour["days"], day_start) for acts, marks in sides
        )
        says = words[0] == "true"
        is_better = plainly_better(ours, theirs, tour["berth"])
        pairs, holds, better = pairs + 1, holds + says, better + is_better
        if is_better and not says:
            wrong += 1
            print("plainly better, but not covered:", line.strip())
    print(f"{name:<10} pairs {pairs:>5}  covers {holds:>5}  plainly better {better:>5}")
    return 1 if wrong else 0

sys.exit(main(*sys.argv[1:5]))
