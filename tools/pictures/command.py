"""The command line that `draw` and `view` share."""
import pathlib, subprocess, sys

from .formats import Unreadable, read_schedule, read_transcript
from .story import Story

ROOT = pathlib.Path(__file__).resolve().parent.parent.parent


def replay(schedule):
    """What `./ld replay` prints for a schedule. Status 3 is a syntax error: the events before it were run."""
    done = subprocess.run([str(ROOT / "ld"), "replay"], input=schedule, stdout=subprocess.PIPE)
    if done.returncode == 1:
        # there is no program, and ./ld has said why
        sys.exit(1)
    if done.returncode not in (0, 3):
        sys.exit(f"`ld replay` ended with status {done.returncode}")
    return done.stdout


def read_story(schedule, transcript=None):
    """The run of a schedule's file and of its transcript's, where there is one."""
    path = pathlib.Path(schedule)
    data = path.read_bytes()
    read = read_schedule(data, path.name)
    name = f"the transcript of {path.name}" if transcript is None else pathlib.Path(transcript).name
    printed = replay(data) if transcript is None else pathlib.Path(transcript).read_bytes()
    return Story(path.stem, read, read_transcript(printed, name), name)


def main(usage, make):
    words, out = sys.argv[1:], None
    if "-o" in words[:-1]:
        at = words.index("-o")
        out = words[at + 1]
        del words[at : at + 2]
    if len(words) not in (1, 2) or words[0].startswith("-"):
        sys.exit(usage)
    try:
        story = read_story(*words)
    except (Unreadable, OSError) as why:
        sys.exit(str(why))
    if not story.steps:
        sys.exit("\n".join(story.notes + ["no event was run, so there is nothing to draw"]))
    for note in story.notes:
        print(note, file=sys.stderr)
    made = make(story)
    if out:
        pathlib.Path(out).write_text(made, encoding="utf-8")
    else:
        sys.stdout.write(made)
