"""What the moves of a dialogue with GDB pass, and what they tell of it."""
import re


class Watcher:
    """What moves have passed, and what they told of it."""

    def __init__(self, run, points, is_watch):
        self.run, self.points, self.is_watch = run, points, is_watch
        self.pending, self.told, self.missed = [], set(), []
        self.steps = [[0] * len(run.harts[0])]
        for choice in run.choices:
            steps = list(self.steps[-1])
            steps[choice.hart] += choice.ran
            self.steps.append(steps)

    def moved(self, line, hart, before, after, text):
        if self.is_watch:
            self.moved_over_changes(line, before, after, "Hardware watchpoint" in text)
        else:
            self.moved_over_breakpoints(line, hart, before, after, text)

    def moved_over_changes(self, line, before, after, has_told):
        """A change that was passed is the one that is told, and that the move stands behind it."""
        for at in range(min(before, after), max(before, after)):
            access = self.run.choices[at].access
            if access is None or access[1] != self.points or access[2] == access[3]:
                continue
            if not (has_told and at == (after - 1 if after > before else after)):
                self.missed.append((line, before, after, at))

    def moved_over_breakpoints(self, line, hart, before, after, text):
        """A hit of another hart that was passed has been told, or the next move tells it."""
        hits = {(int(thread) - 1, self.steps[after][int(thread) - 1]) for thread in re.findall(r'Thread (\d+) "hart \d+" hit', text)}
        self.pending = [] if "reverse" in line else [hit for hit in self.pending if hit[:2] not in hits]
        if line != "stepi":
            self.missed += [(line, before, after, hit) for hit in self.pending if after > hit[2]]
        self.pending = [hit for hit in self.pending if after <= hit[2]]
        for at in range(before, after):
            choice = self.run.choices[at]
            hit = (choice.hart, self.steps[at][choice.hart])
            if choice.ran and choice.pc in self.points and choice.hart != hart and hit not in self.told:
                self.pending.append((*hit, at))
        self.told = hits | (self.told if after >= before else set())
