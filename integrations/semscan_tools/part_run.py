"""Runs the program over some files. It stands alone, since it is sent to the workers of other machines as it is."""
import os
import subprocess
import tempfile


def put(folder: str, path: str, content: bytes) -> None:
    place = os.path.join(folder, path)
    os.makedirs(os.path.dirname(place), exist_ok=True)
    with open(place, 'wb') as file:
        file.write(content)


def run_part(program: str, words: list[str], files: dict[str, bytes]) -> tuple[int, bytes, bytes]:
    """Puts the files into a new folder and runs the program there: its status, what it printed, and its standard error."""
    with tempfile.TemporaryDirectory(prefix='semscan-part-') as folder:
        for path, content in files.items():
            put(folder, path, content)
        run = subprocess.run([program, *words], cwd=folder, stdin=subprocess.DEVNULL, capture_output=True, check=False)
        return run.returncode, run.stdout, run.stderr
