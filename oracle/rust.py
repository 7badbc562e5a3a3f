"""The original Rust, compiled unchanged, and how a program that answers questions is asked. For the commands beside it."""

import argparse
import hashlib
import pathlib
import shutil
import subprocess
import sys

HERE = pathlib.Path(__file__).resolve().parent
ROOT = HERE.parent
BUILD = ROOT / "target/oracle"
ASK = [BUILD / "ask"]

# Overflow is checked, so that it would show as a panic. The lints of the
# original are capped: it asks for documentation of the stand-ins too.
RUSTC = ["rustc", "--edition=2021", "-Coverflow-checks=on", "-L."]
COMMANDS = [
    RUSTC + ["--crate-type=lib", "nonmax.rs"],
    RUSTC + ["--crate-type=lib", "--crate-name=ipmi_rs_core", "--cap-lints=allow",
             "--extern=nonmax", "src/lib.rs"],
    RUSTC + ["--extern=ipmi_rs_core", "--extern=nonmax", "-oask", "program/main.rs"],
]


def stop(status, line):
    print(f"oracle: {line}", file=sys.stderr)
    sys.exit(status)


def parser(about):
    """Of a command line with the folder of the Rust's sources as its last argument."""
    parser = argparse.ArgumentParser(description=about, formatter_class=argparse.RawDescriptionHelpFormatter)
    parser.add_argument("dir", metavar="DIR", nargs="?", type=pathlib.Path, default=ROOT.parent / "shared/docs/src",
                        help="the folder that holds src/lib.rs of the Rust (default: ../shared/docs/src beside the project)")
    return parser


def sources(original):
    """The sources of the Rust and of its stand-ins: the bytes by the place that each file has beside the others."""
    if not (original / "src/lib.rs").is_file():
        stop(2, f"no src/lib.rs of the Rust under {original}")
    files = {}
    # The original comes after the stand-ins: they only fill its gaps.
    for origin, place in ((HERE / "stand-ins", "."), (original / "src", "src")):
        files |= under(origin, place)
    return files


def under(origin, place):
    return {str(pathlib.Path(place) / path.relative_to(origin)): path.read_bytes() for path in origin.rglob("*.rs")}


def build(original):
    """Lays all sources side by side and compiles them, if any has changed."""
    if not shutil.which("rustc"):
        stop(2, "no rustc found; install Rust 1.65 or later (Debian 12: apt-get install rustc-web cargo-web)")
    files = {BUILD / place: content for place, content in (sources(original) | under(HERE / "src", "program")).items()}

    stamp = BUILD / "stamp"
    digest = hashlib.sha256(repr((sorted(files.items()), COMMANDS)).encode()).hexdigest()
    if stamp.exists() and stamp.read_text() == digest:
        return

    shutil.rmtree(BUILD, ignore_errors=True)
    for path, content in files.items():
        path.parent.mkdir(parents=True, exist_ok=True)
        path.write_bytes(content)
    for command in COMMANDS:
        if subprocess.run(command, cwd=BUILD).returncode != 0:
            stop(1, f"{command[-1]} does not compile")
    stamp.write_text(digest)


def ask(command, text, count):
    """The answers of a program to the questions of the text."""
    run = subprocess.run(command, input=text.encode("latin-1"), stdout=subprocess.PIPE)
    answers = run.stdout.decode("latin-1").split("\n")[:-1]
    if run.returncode != 0 or len(answers) != count:
        after = text.split("\n")[len(answers):][:1]
        stop(1, f"{command[-1].name}: {count} questions, but {len(answers)} answers and status {run.returncode}; the next one: {str(after)[:200]}")
    return answers
