"""Says how a build goes on: which crates are at work, how many are left, and about how long that takes."""
import re
import sys
import threading
import time

from repository import below, lanes, read

# what a build takes more of the processors than the table says, as several jobs take more than one and processors are idle; and
# which part of the time a proof takes with several jobs
MORE, SHARE = 1.65, 0.5


def measured():
    """The processor minutes of each crate's proof, as CONTRIBUTING has them."""
    return {name: float(it) for name, it in re.findall(r"(?m)^\| `(\w+)` \| ([\d.]+) \|", read("CONTRIBUTING.md"))}


class Progress:
    """The crates that are left, and since when those at work are. A terminal has one line, which is written again."""

    def __init__(self, crates, known):
        minutes = measured()
        self.cost = {it: minutes.get(it, 1.0) for it in crates}
        self.known, self.left, self.begun, self.said = known, set(crates), {}, ""
        self.start, self.first, self.turn = time.monotonic(), self.minutes(), threading.Lock()

    def chains(self):
        """The minutes of the longest chain of crates that are left, by the crate with which it begins."""
        now, found = time.monotonic(), {}
        for crate in sorted(self.left, key=lambda it: -len(below(it, self.known))):
            own = max(SHARE * self.cost[crate] - (now - self.begun.get(crate, now)) / 60, 0)
            found[crate] = own + max((found[it] for it in found if crate in below(it, self.known)), default=0)
        return found

    def minutes(self):
        """About how many minutes the crates that are left take on an idle machine."""
        return max(max(self.chains().values(), default=0), MORE * sum(self.cost[it] for it in self.left) / lanes())

    def is_first(self, crate):
        """Whether no chain that is left is longer than the one that begins with this crate."""
        chains = self.chains()
        return chains[crate] >= max(chains.values())

    def estimate(self):
        """The same, at the speed at which the build went so far."""
        left, past = self.minutes(), (time.monotonic() - self.start) / 60
        done = self.first - left
        return left if done < 2 else left * min(max(past / done, 0.7), 4)

    def begin(self, crate):
        with self.turn:
            self.begun[crate] = time.monotonic()
            self.say()

    def end(self, crate):
        with self.turn:
            self.begun.pop(crate, None)
            self.left.discard(crate)
            self.say()

    def say(self):
        """Says how far the build is, if something is at work."""
        at_work = ", ".join(sorted(self.begun))
        if not at_work:
            return
        line = f"build: {len(self.left)} of {len(self.cost)} crates left, about {max(round(self.estimate()), 1)} min; at work: {at_work}"
        print(f"\r\x1b[K{line}" if sys.stdout.isatty() else line + "\n", end="", flush=True)
        self.said = line

    def close(self):
        """Ends the line of a terminal."""
        if self.said and sys.stdout.isatty():
            print(flush=True)
