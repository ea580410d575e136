"""The limits of the texts (docs/formats.md), by their names in crates/msp_class/src/sizes.rt; tools/check-limits compares the three."""

MOST_JOBS = 400
MOST_MACHINES = 32
MOST_ARCS = 20_000
# (operations of a job shop's route, and with n<=2)
MOST_OPERATIONS = 32
MOST_SHORT_OPERATIONS = 2
# (of a cost curve)
MOST_STEPS = 16
# (times, release dates, weights, slopes, thresholds and adds; due dates and bases in size)
GREATEST = 10**9
GREATEST_SPEED = 10**6
GREATEST_MULTIPLE = 2**30
GREATEST_EQUAL_TIME = 10**6
# (the unit and the moments of a schedule)
GREATEST_UNIT = 10**13
GREATEST_MOMENT = 2 * 10**26
# (the number of seeds, which begin with 0)
SEEDS = 2**31


def said(limit: int) -> str:
    """A limit as messages and documents say it: a power as 10^9, another number with commas."""
    for base in (10, 2):
        power = 0
        while limit % base ** (power + 1) == 0:
            power += 1
        factor = limit // base**power
        if power > 5 and factor < 10:
            return f"{base}^{power}" if factor == 1 else f"{factor}*{base}^{power}"
    return f"{limit:,}"
