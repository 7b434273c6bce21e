"""What the parts of the gate may cost, by the table of budgets in docs/GATE.md, and what they cost."""
import re
from dataclasses import dataclass

from lib.kit import TOP

ROW = re.compile(r"(?m)^\| ([a-z ]+) \| ([a-z_, ]+) \| .* \| *([0-9.]+) \| *([0-9.]+) \|$")


@dataclass
class Budget:
    """What some parts may use together, in processor minutes and in minutes on two processors."""

    name: str
    parts: list
    processor: float
    minutes: float

    def told(self, done):
        """Returns a line on what its parts have used of it."""
        spent = [done[it] for it in self.parts]
        processor, minutes = sum(it.processor for it in spent), sum(it.minutes for it in spent)
        # (more processors than two only take minutes off)
        over = ": OVER BUDGET" if processor > self.processor or minutes > self.minutes else ""
        return f"budget of {self.name}: {processor:.1f} of {self.processor:g} processor minutes, {minutes:.1f} of {self.minutes:g} minutes{over}"


def budgets(names):
    """Returns the budgets, of which each part of these names must have one."""
    with open(f"{TOP}/docs/GATE.md", encoding="utf-8") as file:
        table = file.read().split("| Budget |")[1].split("\n\n")[0]
    found = [Budget(name, parts.split(", "), float(processor), float(minutes)) for name, parts, processor, minutes in ROW.findall(table)]
    differ = {*names} ^ {part for it in found for part in it.parts}
    if differ:
        raise SystemExit(f"the budgets of docs/GATE.md aren't those of the parts of the gate: {', '.join(sorted(differ))}")
    return found
