"""Commands that are killed at random times between their first and their last change of a folder.

A run that is killed in front of its first change, or that has ended before it is killed, shows nothing of what a kill leaves: such ones are counted apart, and
don't count as kills. So the folder is watched until something in it has changed, and the time is drawn from there on, up to the last change of a run that was let to its end.
How long that takes on a machine that does other work as well is learnt from each run.
"""
import os
import random
import signal
import time

from counting import judge

# How much shorter the time is for the next run where one has ended by itself, and how much longer where it was killed.
SHORTER, LONGER = 0.9, 1.01


class Chance:
    """So many kills of one command. `make` lays the folder as it is before the command, `start` starts the command, and `state` says what is in the folder."""

    def __init__(self, called, seed, folder, make, start, state):
        self.called, self.some, self.folder = called, random.Random(f"{seed} {called}"), folder
        self.make, self.start, self.state = make, start, state
        self.behind = self.before = self.ended = 0
        # What is in the folder before the command.
        self.laid = None

    def places(self):
        """The folders of which one has another name in it behind the first change: where there is no target, the one that it is to lie in."""
        data = os.path.join(self.folder, "data")
        inner = [os.path.join(data, name) for name in os.listdir(data)] if os.path.isdir(data) else []
        return [self.folder, data, *(path for path in inner if os.path.isdir(path))] if os.path.isdir(self.folder) else [os.path.dirname(self.folder)]

    @staticmethod
    def seen(places):
        """When names in these folders have changed last."""
        return [os.stat(path).st_mtime_ns if os.path.isdir(path) else None for path in places]

    def started(self):
        """A command that was started, once it has changed something or has ended, and the time then."""
        self.make()
        self.laid = self.state()
        places = self.places()
        seen = self.seen(places)
        process = self.start()
        while process.poll() is None and self.seen(places) == seen:
            pass
        return process, time.monotonic()

    def lasts(self):
        """How long the command lasts from its first change on: the middle one of three runs."""
        took = []
        for _ in range(3):
            process, begun = self.started()
            process.wait()
            took.append(time.monotonic() - begun)
            judge(process.returncode == 0, f"{self.called} ends with {process.returncode}")
        return sorted(took)[1]

    def kills(self, count):
        """Kills the command until so many kills came behind its first change, in at most twice as many runs: what to call each of these, and what it leaves."""
        begun, most = time.monotonic(), self.lasts()
        while self.behind < count and self.behind + self.before + self.ended < 2 * count:
            after = self.some.uniform(0, most)
            what = f"{self.called} that is killed {after:.4f} seconds behind its first change"
            if self.killed(what, after):
                most *= LONGER
                self.behind += 1
                yield what
            else:
                most *= SHORTER
        runs = self.behind + self.before + self.ended
        print(
            f"{self.called}: {self.behind} kills behind the first change in {runs} runs, of which {self.before} were killed in front of it and {self.ended} ended by themselves; "
            f"{time.monotonic() - begun:.0f} s",
            flush=True,
        )
        judge(self.behind == count, f"{self.called}: of {runs} runs {self.behind} were killed behind the first change")

    def killed(self, what, after):
        """One run that is killed so many seconds behind its first change; whether it was, and hadn't ended by itself."""
        process, begun = self.started()
        while time.monotonic() < begun + after:
            time.sleep(max(0.0, min(after, begun + after - time.monotonic()) - 0.0005))
        process.kill()
        process.wait()
        judge(process.returncode in (0, -signal.SIGKILL), f"{what}: status {process.returncode}")
        if process.returncode == 0:
            self.ended += 1
            return False
        is_behind = self.state() != self.laid
        self.before += not is_behind
        return is_behind
