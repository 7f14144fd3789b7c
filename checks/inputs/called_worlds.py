"""Worlds of a benchmark in which players make the same calls in each tick."""

from scripts import Script, unkept
from worlds import upload_entry


class CalledWorld:
    """`rooms` has the objects of each room, and `calls` the calls of each player."""

    def __init__(self, rooms, calls):
        self.rooms, self.calls = rooms, calls

    def objects(self):
        return sum(map(len, self.rooms))

    def entries(self):
        return sum(map(len, self.calls.values()))

    def uploads(self):
        """The upload stream of these players."""
        stream = b""
        for number, calls in sorted(self.calls.items()):
            code = [instruction for call in calls for instruction in unkept(*call)]
            stream += upload_entry(0, number, Script(code, pages=None).content)
        return stream
