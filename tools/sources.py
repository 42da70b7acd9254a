"""What scripts of this repository share: its crates, scratch repositories over them, wrong edits, the blocks of code of a page, free memory."""
import contextlib
import pathlib
import re

ROOT = pathlib.Path(__file__).resolve().parent.parent
CRATES = ROOT / "crates"
MORE_EDITS = ROOT / "more-edits"
PARTS = ("src", "specs", "proofs")


def crates():
    """The crates of crates.txt, each with those that it stands on, in their order."""
    lines = (line.partition("#")[0].partition(":") for line in (ROOT / "crates.txt").read_text().splitlines())
    return {name.strip(): lower.split() for name, colon, lower in lines if colon}


def link_crates(room):
    """Puts the crates of the repository into a scratch one, with their sources linked, and returns the libraries."""
    for name in crates():
        (room / "crates" / name).mkdir(parents=True)
        for part in PARTS:
            if (CRATES / name / part).is_dir():
                (room / "crates" / name / part).symlink_to(CRATES / name / part)
    (room / "HANDLES").write_text((ROOT / "HANDLES").read_text())
    (room / "crates.txt").write_text("".join(f"{name}: {' '.join(lower)}\n" for name, lower in crates().items()))
    return [name for name in crates() if (CRATES / name / "src" / "lib.rt").exists()]


def add_crate(room, name, texts, libraries):
    """Adds a crate with these sources, each text under its name, over those of the libraries that they name. Returns its folder."""
    folder = room / "crates" / name
    for path, text in texts.items():
        (folder / "src" / path).parent.mkdir(parents=True, exist_ok=True)
        (folder / "src" / path).write_text(text)
    words = set(re.findall(r"\w+", " ".join(texts.values())))
    with open(room / "crates.txt", "a", encoding="utf-8") as listed:
        listed.write(f"{name}: {' '.join(library for library in libraries if library in words)}\n")
    return folder


def split_edits(text):
    """The edits of a file of more-edits/, each with its name: the line `# NAME` begins one, which goes on to the next such line."""
    return re.findall(r"^# (\w+)\b[^\n]*\n(.*?)(?=^# |\Z)", text, re.M | re.S)


def blocks(text):
    """The blocks of code of a page, in their order: the word of the fence, the lines of code, and where the fence stands in the page.

    A fence that nothing closes goes to the end of the page.
    """
    return [
        (found[1].strip(), found[2], found.start())
        for found in re.finditer(r"^```([^\n]*)\n(.*?)(?:^```[ \t]*$|\Z)", text, re.M | re.S)
    ]


def limits_of_groups():
    """What the limits of the groups that this belongs to leave, in megabytes: of the first kind of groups, and of the second."""
    for line in pathlib.Path("/proc/self/cgroup").read_text().splitlines():
        _, kinds, path = line.split(":", 2)
        if kinds not in ("", "memory"):
            continue
        top = pathlib.Path("/sys/fs/cgroup", kinds)
        limit, used = ("memory.limit_in_bytes", "memory.usage_in_bytes") if kinds else ("memory.max", "memory.current")
        for folder in [top / path.lstrip("/"), *(top / path.lstrip("/")).parents]:
            with contextlib.suppress(OSError, ValueError):
                # (files that were read count as used, and are let go)
                kept = re.search(r"^(?:total_)?inactive_file (\d+)$", (folder / "memory.stat").read_text(), re.M)
                yield int((folder / limit).read_text()) - int((folder / used).read_text()) + int(kept[1]) >> 20


def free_memory():
    """How much memory there is to take, in megabytes."""
    free = re.search(r"^MemAvailable:\s+(\d+) kB$", pathlib.Path("/proc/meminfo").read_text(), re.M)
    return min([int(free[1]) >> 10, *limits_of_groups()])
