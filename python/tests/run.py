"""Runs test modules as `unittest` does, with a limit of time for each test: one that takes longer is shown, and ends all.

    python3 -m tests.run MODULE..
"""
import faulthandler
import sys
import unittest

# In seconds. The longest test takes 25 where nothing else runs, and over 150 where seven programs share a processor.
LIMIT = 400


class Limited(unittest.TextTestResult):
    """Results of tests that may not hang."""

    def startTest(self, test: unittest.TestCase) -> None:
        faulthandler.dump_traceback_later(LIMIT, exit=True)
        super().startTest(test)

    def stopTest(self, test: unittest.TestCase) -> None:
        super().stopTest(test)
        faulthandler.cancel_dump_traceback_later()


if __name__ == "__main__":
    names = [f"tests.{it}" for it in sys.argv[1:]]
    runner = unittest.TextTestRunner(resultclass=Limited, verbosity=2)
    unittest.main(module=None, argv=[sys.argv[0], *names], testRunner=runner)
