"""Each allocation is refused in turn. Without -v such a run prints out of memory and nothing else, or
manages with less memory and gives the usual result, as does the last run, which has no refusal."""

import os

from messages import message
from program import ProgramCase, fault, preload
from reference import VERSION

COMMANDS = [
    "encrypt -p pass -w 1 -s seed hello", "decrypt -p pass pass_1.age", "encrypt -k key -s seed hello",
    "encrypt -k key -k other.key -s seed hello", "decrypt -k key key.age",
    "rewrap -p pass -P pass -w 1 -s seed pass_1.age", "rewrap -k key -K new.key -s seed key.age",
    "rewrap -k new.key -k key -K new.key -K key -s seed key.age",
    "range -p pass 65530 12 plain_pass.age", "range -k key 65530 12 plain.age",
    "salvage -p pass pass_1.age", "salvage -k key two.age", "inspect data/three_recipients.age", "inspect -r data/ssh_recipients.age",
    "inspect -f data/passphrase.key data/passphrase.age", "inspect -H 12", "help inspect",
]


class Allocations(ProgramCase):
    def refusals(self, *words):
        """A run for each allocation, which is refused, and then one run without a refusal."""
        for number in range(1, 10000):
            if os.path.exists("refused"):
                os.remove("refused")
            ran = self.run_agep(*words, env={"REFUSE": str(number), "LD_PRELOAD": preload("refuse")})
            yield ran
            if not os.path.exists("refused"):
                return
        self.fail("no end of allocations")

    def test_each_command(self):
        """Out of memory, unless only the space for all arguments is refused: then their list grows as it is needed."""
        for words in COMMANDS:
            with self.subTest(words):
                usual = self.run_agep(*words.split())
                *refused, last = self.refusals(*words.split())
                harmless = 0
                for ran in refused:
                    if (ran.err, ran.out) == (fault(message("OutOfMemory")).encode(), b""):
                        self.assertIn(ran.status, (1, usual.status or 1))
                    else:
                        self.assert_ended(ran, usual.status, usual.err, usual.out)
                        harmless += 1
                self.assertGreater(len(refused), 6)
                self.assertEqual(harmless, 1)
                self.assert_ended(last, usual.status, usual.err, usual.out)

    def test_header_line(self):
        """A line of a header is allocated in blocks of at most twice its size."""
        with open("long", "wb") as file:
            file.write(VERSION + b"-> %s\n\n--- %s\n" % (b"a" * 1_000_000, b"A" * 43))
        words = ("inspect", "-r", "-H", "16777216", "long")
        for most, ends in ((2_001_000, ("", None)), (999_999, (fault(message("OutOfMemory")), b""))):
            with self.subTest(most):
                ran = self.run_agep(*words, env={"LARGE": str(most), "LD_PRELOAD": preload("refuse")})
                self.assert_ended(ran, int(ends[0] != ""), *ends)

    def test_explained(self):
        """With -v: out of memory instead of the first line, the second or both, or a usual run."""
        line, more = message("NoMatch"), "pass.age: not opened by key file key"
        full = fault(line, more).encode()
        refusal = message("OutOfMemory")
        said = [fault(refusal), fault(refusal, refusal), fault(refusal, "IN: pass.age"), fault(line, refusal), fault(line, more)]
        *refused, last = self.refusals("decrypt", "-v", "-k", "key", "pass.age")
        self.assertTrue(refused)
        for ran in refused:
            self.assertIn(ran.err.decode(), said)
            self.assert_ended(ran, 1, ran.err)
        self.assert_ended(last, 1, full)

    def test_equal_counts(self):
        """A run makes as many allocations for a small file as for a big one."""
        rows = [
            ("encrypt -k key -s seed two_chunks", "encrypt -k key -s seed great"),
            ("decrypt -k key two.age", "decrypt -k key great.age"),
        ]
        with open("great", "wb") as file:
            file.write(b"%0999999d\n" % 0)
        self.writes(b"", "encrypt", "-k", "key", "-o", "great.age", "great")
        for small, great in rows:
            with self.subTest(small):
                count = len(list(self.refusals(*small.split())))
                self.assertGreater(count, 1)
                self.assertEqual(len(list(self.refusals(*great.split()))), count)
