"""What the benches of the program share: files of plain documents, and how a run is measured."""
import os
import subprocess
import sys
import time

TOP = os.path.dirname(os.path.dirname(os.path.abspath(__file__)))
QUILL = os.path.join(TOP, "crates", "quill", "out", "quill")
SPELLING = os.path.join(TOP, "crates", "spelling_model", "src", "pieces.rt")
RUNS = 5
WORDS = "the quick brown fox jumps over a lazy dog while seven writers watch from old oak trees".split()


def constants():
    """The fixed pieces of the canonical bytes, read from where the program has them."""
    found = {}
    name = None
    for line in open(SPELLING, encoding="utf-8"):
        line = line.strip()
        if line.startswith("pub const "):
            name = line.split()[2].rstrip(":")
        if name and '"' in line:
            text = line[line.index('"') + 1 : line.rindex('"')]
            found[name] = text.encode().decode("unicode_escape")
            name = None
    return found


def plain_file(path, paragraphs):
    piece = constants()
    with open(path, "w", encoding="ascii", newline="") as out:
        out.write(piece["ROOT"] + piece["ROOT_END"] + piece["BODY"])
        for number in range(paragraphs):
            words = [WORDS[(number * 7 + place * 3) % len(WORDS)] for place in range(12)]
            out.write(piece["PARAGRAPH"] + " ".join(words) + piece["PARAGRAPH_END"])
        out.write(piece["TAIL"])


def measure(command):
    """Seconds and peak memory in MiB of the best of some runs; standard output is read away."""
    best = (float("inf"), 0.0)
    for _ in range(RUNS):
        with open(os.devnull, "wb") as sink:
            start = time.perf_counter()
            child = subprocess.Popen(command, stdout=sink, stderr=subprocess.PIPE)
            complaint = child.stderr.read()
            _, status, usage = os.wait4(child.pid, 0)
            seconds = time.perf_counter() - start
        if status != 0:
            sys.exit(f"{' '.join(command)} ended with {status}: {complaint.decode(errors='replace')}")
        best = min(best, (seconds, usage.ru_maxrss / 1024))
    return best


def row(label, command):
    seconds, peak = measure(command)
    print(f"    {label:<28} {seconds * 1000:10.1f} ms {peak:9.1f} MiB")
    return seconds


def built():
    """Ends the run where the program isn't built."""
    if not os.path.exists(QUILL):
        sys.exit("crates/quill/out/quill isn't built: run `rt run` in crates/quill first")


def documents(work):
    """The number of paragraphs of each document and its path, with what runs quill over it by the lines of a script."""
    script = os.path.join(work, "script")
    for paragraphs in (1_000, 10_000, 40_000):
        path = os.path.join(work, f"{paragraphs}.fodt")
        plain_file(path, paragraphs)
        print(f"{paragraphs} paragraphs, {os.path.getsize(path)} bytes")

        def quill(label, lines):
            with open(script, "w", encoding="ascii") as out:
                out.write("\n".join(lines))
            return row(label, [QUILL, "run", path, script])

        yield paragraphs, path, quill
