"""Tests of the built libraries with each allocation refused in turn: scrypt, the calls in steps, and ranges.
Each call succeeds or returns out of memory, or a failed write if the sink's own memory was refused."""

import os
import subprocess
import unittest

from program import ROOT, preload, scratch


class RefusedAllocations(unittest.TestCase):
    def each_refusal(self, crate, name, least):
        """Runs a test of a crate until a run has no refused allocation; at least `least` runs must have one."""
        tests = f"{ROOT}/crates/{crate}/out/{crate}_tests"
        folder = scratch()
        if not os.access(tests, os.X_OK):
            subprocess.run(["rt", "test"], cwd=f"{ROOT}/crates/{crate}", stdin=subprocess.DEVNULL, capture_output=True)
        for number in range(1, 1000):
            if os.path.exists(folder + "/refused"):
                os.remove(folder + "/refused")
            env = {**os.environ, "REFUSE": str(number), "LD_PRELOAD": preload("refuse")}
            done = subprocess.run([tests, name], cwd=folder, env=env, capture_output=True, timeout=600)
            self.assertEqual(done.returncode, 0, f"allocation {number}: {done.stdout.decode()}{done.stderr.decode()}")
            if not os.path.exists(folder + "/refused"):
                break
        self.assertGreaterEqual(number - 1, least)

    def test_scrypt(self):
        """age_kdf: scrypt succeeds or is out of memory."""
        self.each_refusal("age_tests", "kdf::scrypt_whole_or_out_of_memory", 1)

    def test_steps_and_ranges(self):
        """age_file: steps and ranges succeed, are out of memory, or fail to write into memory."""
        self.each_refusal("age_tests", "file::failing::whole_or_out_of_memory", 20)
