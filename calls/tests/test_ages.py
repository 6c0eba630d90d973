"""How long things lie unchanged, whatever happens to the clock."""
import json
import os
from unittest import mock

from uuspool_calls.ages import Ages

from .standins import Folder

DAY = 86400


class Looks(Folder):
    def setUp(self) -> None:
        super().setUp()
        self.paths = [self.put(name) for name in ("a", "b", "c")]
        self.record = f"{self.folder}/seen"

    def look(self, now: float, running: float, boot: str = "a") -> Ages:
        """At so many days by the clock, and since the machine started."""
        with mock.patch.multiple("uuspool_calls.clock", now=lambda: int(1.8e9 + now * DAY), running=lambda: float(running * DAY), boot=lambda: boot):
            return Ages.look(self.record, self.paths)

    def old(self, ages: Ages, days: int = 30) -> str:
        return "".join(os.path.basename(path) for path in self.paths if ages.is_old(path, days))

    def test_the_clock_has_no_part_in_it_while_the_machine_runs(self) -> None:
        os.utime(self.paths[0], (1, 1))
        for now, running, old in (0, 1, ""), (29.9, 1.1, ""), (4000, 1.2, ""), (-4000, 2, ""), (31, 30.9, ""), (31, 31.1, "abc"), (0, 31.1, "abc"), (0, 30, "abc"):
            self.assertEqual(old, self.old(self.look(now, running)), (now, running))

    def test_a_change_begins_the_time_anew(self) -> None:
        self.look(0, 1)
        for at in range(4):
            os.utime(self.paths[0], (at, at))
            self.assertEqual("bc" if at == 3 else "", self.old(self.look(at * 10, at * 10 + 1)))
        ages = self.look(60, 61)
        os.utime(self.paths[1], (5, 5))  # (after the look)
        os.remove(self.paths[2])
        self.assertEqual("a", self.old(ages))
        self.put("c")
        self.assertEqual("a", self.old(self.look(61, 62)))

    def test_a_start_of_the_machine_counts_for_a_day_at_most(self) -> None:
        self.look(0, 1)
        for now, boot, days in (0.5, "b", 0), (1.1, "c", 1), (400, "d", 2), (-400, "e", 2), (-398, "", 3), (-396, "", 4):
            ages = self.look(now, 0.1, boot)
            self.assertEqual(("abc", ""), (self.old(ages, days), self.old(ages, days + 1)), now)

    def test_damaged_records(self) -> None:
        self.look(0, 1)
        kept = json.loads(self.bytes_of("seen"))
        seen = kept["seen"]
        for text in "", "x", "[]", *(json.dumps(kept | it) for it in ({"time": "x"}, {"now": None}, {"running": 1}, {"seen": 7}, {"seen": {path: [1] for path in seen}}, {"seen": {path: [it[0], DAY * 99] for path, it in seen.items()}})):
            self.put("seen", text)
            self.assertEqual("", self.old(self.look(31, 2)), text)
        self.put("seen", json.dumps(kept))
        self.assertEqual("abc", self.old(self.look(31, 31)))

    def test_a_full_disk(self) -> None:
        self.look(0, 1)
        with mock.patch("uuspool_calls.files.write_record", side_effect=OSError):
            self.assertEqual("abc", self.old(self.look(0, 32)))
        self.assertEqual("", self.old(self.look(0, 2)))
