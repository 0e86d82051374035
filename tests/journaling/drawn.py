"""Journals of runs drawn at random, in several files, whole and spoiled: what the program says of them, and what the plain account does."""
import pathlib
import random
import shutil
import subprocess
import tempfile

from harness.cases import Case
from simulator.drawn_journal import draw_files
from simulator.spoiled import spoiled

from .account import verdict

SECONDS = 300
# how many spoiled journals are made of each run
SPOILED = 4


def replayed(program: str, *words: str) -> tuple[int, str, str]:
    """The status of `pced replay`, and what it writes."""
    ran = subprocess.run([program, "replay", *words], stdin=subprocess.DEVNULL, capture_output=True, text=True, timeout=SECONDS)
    return ran.returncode, ran.stdout, ran.stderr


def written(folder: pathlib.Path, files: list[list[str]]) -> list[str]:
    """The paths of files of these lines."""
    paths = []
    for number, lines in enumerate(files, 1):
        path = folder / f"{number}.journal"
        path.write_text("".join(line + "\n" for line in lines), errors="surrogateescape")
        paths.append(str(path))
    return paths


def journals(draw, steps: int):
    """The files of a run: all, each of them alone, the last ones, and spoiled ones, from the first and from the spoiled one on."""
    files = draw_files(draw, steps)
    yield files
    if len(files) > 1:
        yield from ([lines] for lines in files)
        yield files[draw.randrange(1, len(files)):]
    for _ in range(SPOILED):
        others, place = spoiled(draw, files)
        yield others
        if others[place:] not in (others, []):
            yield others[place:]


def compare(given, seed: int, program: str):
    draw = random.Random(seed)
    folder = pathlib.Path(tempfile.mkdtemp(prefix="pced-journal-"))
    try:
        for files in journals(draw, given.steps):
            paths = written(folder, files)
            came, wanted = replayed(program, *paths), verdict(paths)
            if came != wanted:
                given.folder.mkdir(parents=True, exist_ok=True)
                written(given.folder, files)
            yield came, wanted
    finally:
        shutil.rmtree(folder)


def cases_of(given):
    for seed in range(given.seed, given.seed + given.runs):
        yield Case(f"drawn_{seed}", "A journal drawn at random.", lambda program, seed=seed: compare(given, seed, program))
