"""How the tests of this folder run: what failed, what was left out and why, and one line at the end."""
import signal
import sys
import unittest


class Result(unittest.TextTestResult):
    """Says why a test was left out."""

    def addSkip(self, test, reason):
        super().addSkip(test, reason)
        self.stream.writeln(f"left out: {getattr(test, '_testMethodName', test)} ({reason})")


def main(name, seconds):
    """Runs the tests of the program, and ends with it: after so many seconds at the latest."""
    signal.alarm(seconds)
    tests = unittest.defaultTestLoader.loadTestsFromModule(sys.modules["__main__"])
    result = unittest.TextTestRunner(resultclass=Result).run(tests)
    failed, left = len(result.failures) + len(result.errors), len(result.skipped)
    print(f"{name}: {result.testsRun - len(result.skipped) - failed} passed, {failed} failed, {left} left out")
    sys.exit(bool(failed))
