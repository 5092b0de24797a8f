"""What several checks share: counting, the files below a folder, and a commit to pack."""
import datetime
import os
import types

# One that is none.
COMMIT = types.SimpleNamespace(number="0" * 40, time=1, when=datetime.datetime.fromtimestamp(1, datetime.timezone.utc),
                               version="0.2.0~19700101.000000000")


class Counts:
    """What was right and what was not, which is printed."""

    def __init__(self):
        self.passed = self.failed = 0

    def judge(self, is_right, what, got=""):
        if is_right:
            self.passed += 1
        else:
            self.failed += 1
            print(f"FAILED {what}: {got}")

    def close(self):
        """Prints the closing line, and gives the status."""
        print(f"{self.passed} passed, {self.failed} failed")
        return 1 if self.failed or not self.passed else 0


def files_of(folder):
    """The names of all files below a folder, from there."""
    return {os.path.relpath(os.path.join(at, name), folder) for at, _, names in os.walk(folder) for name in names}
