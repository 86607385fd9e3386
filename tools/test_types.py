"""The type hints of the scripts are right, by mypy of Debian."""
import glob
import os
import shutil
import subprocess
import unittest

HERE = os.path.dirname(os.path.abspath(__file__))
# Scripts and modules by the folders from which they are run, with what else stands on their path.
FILES = ["*.py", "p4tools", "rows/*.py", "../bench/*.py"]


class Types(unittest.TestCase):
    def test_hints(self) -> None:
        mypy = shutil.which("mypy")
        if not mypy:
            print("tools/test: type hints are not checked: apt-get install -y mypy", flush=True)
            self.skipTest("mypy is missing")
        files = [file for pattern in FILES for file in sorted(glob.glob(pattern, root_dir=HERE))]
        ended = subprocess.run([mypy, "--config-file", "mypy.ini", *files], cwd=HERE, capture_output=True, text=True, check=False)
        self.assertEqual(ended.returncode, 0, ended.stdout + ended.stderr)


if __name__ == "__main__":
    unittest.main()
