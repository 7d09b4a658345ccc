"""Runs the tests of a file, and says at the end which were skipped and why."""
import unittest


class Told(unittest.TextTestResult):
    def printErrors(self) -> None:
        super().printErrors()
        for test, reason in self.skipped:
            self.stream.writeln(f"skipped {test.id().removeprefix('__main__.')}: {reason}")


class Runner(unittest.TextTestRunner):
    resultclass = Told


def main() -> None:
    unittest.main("__main__", testRunner=Runner)
