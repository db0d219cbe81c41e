"""The rows that the rates print: a name, the number that was measured, what is wanted of it, and the verdict."""
import os, sys

NAME_WIDTH, NUMBER_WIDTH, WANTED_WIDTH = 72, 12, 16
SCRIPT = os.path.basename(sys.argv[0])
LACKS = 77  # the status of a rate that can't be measured here


def shown(number):
    """Three digits at least, no more than tell something."""
    if number == 0 or abs(number) >= 100:
        return f"{number:,.0f}"
    return f"{number:.2f}" if abs(number) >= 1 else f"{number:.3g}"


def row(name, number, wanted, verdict):
    print(f"{name:<{NAME_WIDTH}} {number:>{NUMBER_WIDTH}} {wanted:>{WANTED_WIDTH}}  {verdict}", flush=True)


class Rows:
    """The rows of a script, and whether all that is wanted is met."""

    def __init__(self):
        self.good = True

    def told(self, name, number):
        """A number of which nothing is wanted."""
        row(f"{SCRIPT}: {name}", shown(number), "-", "-")

    def judged(self, name, number, wanted, is_met):
        self.good = self.good and is_met
        row(f"{SCRIPT}: {name}", shown(number), wanted, "met" if is_met else "NOT MET")

    def at_least(self, name, number, wanted):
        self.judged(name, number, f"at least {shown(wanted)}", number >= wanted)

    def at_most(self, name, number, wanted):
        self.judged(name, number, f"at most {shown(wanted)}", number <= wanted)

    def not_measured(self, name, why):
        row(f"{SCRIPT}: {name}", "-", "-", f"not measured: {why}")

    def end(self):
        sys.exit(0 if self.good else 1)
