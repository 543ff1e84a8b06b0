#!/usr/bin/env python3
"""Tries all wrong bodies, outside the gate: those of bench/wrong_bodies/CRATE and those of
crates/CRATE/must-fail. Each changes lines of the code, and the prover has to refuse it.

usage: python3 bench/wrong_bodies.py [--at FOLDER] [--built FOLDER] [--jobs N] [--table FILE]
                                     [--told] [CRATE..]

It works on a copy of the repository in FOLDER (a new one below /tmp if none is named), for which
`rt ci` first gives the libraries; or those are taken that stand below crates/ of the folder named
by --built. N crates are tried side by side.

Since a function is proved from the contracts of those that it calls, bodies of different functions
are laid over one copy of their crate, and one check tells of each whether goals of its function are
left open. A body that its function's contract lets through is tried again alone, with the whole
crate.

What each comes to is added to FOLDER/verdicts at once, with a sum of the crate's text and of the
body, so a run that was cut off goes on there. At the end it prints the counts and each body that
was not refused, and writes all verdicts as a table to FILE; with --told it does this alone.
"""
import argparse, collections, concurrent.futures, functools, hashlib, os, pathlib, re, shutil
import subprocess, sys, tempfile, textwrap, threading

TOP = pathlib.Path(__file__).resolve().parent.parent
FUNCTION = re.compile(r"^( *)(?:pub(?:\([a-z]+\))? )?(?:const )?(?:unsafe )?fn (\w+)", re.M)
BLOCK = re.compile(r"^(?:impl|(?:pub(?:\([a-z]+\))? )?trait)\b([^{]*)", re.M)
TOLD = re.compile(r"^fn (\S+?)(?:: (proved|not proved|no proof|could not tell)\b(.*)|$)", re.M)
# What a check says of an error in the code itself, so that nothing was asked of a contract.
UNREAD = re.compile(
    r"error\[[\w-]+\]|^(?:\./)?src/\S+: error:.*(?:is not in scope|has no field)", re.M
)
CLAUSE = re.compile(r"clause-([\w-]+)$")
GOAL = re.compile(r"`([\w.+-]+)`")
REFUSED_GOAL = re.compile(r"^(?:\./)?proofs/(\S+?)/\w+\.antt:\S* error: `([\w.+-]+)`", re.M)
VERDICTS = {
    "clause": "refused by a clause of its function",
    "inside": "refused within its function",
    "own": "refused by its function, at what is not noted",
    "elsewhere": "refused elsewhere",
    "limit": "refused by a limit of the prover",
    "missed": "not refused",
    "unfit": "does not apply",
}
Body = collections.namedtuple("Body", "crate name changes function sum")


def crates_in_order():
    lines = (TOP / "crates.txt").read_text().splitlines()
    return [line.split(":")[0] for line in lines if ":" in line and not line.startswith("#")]


def changes_of(text):
    """The changes that a body's file tells: the file, the old text and the new one."""
    path, old, found = "", "", []
    for line in text.splitlines():
        if line.startswith("file: "):
            path = line[len("file: ") :].strip()
        elif line.startswith("old: "):
            old = line[len("old: ") :]
        elif line.startswith("new:"):
            found.append((path, old, line[len("new:") :].removeprefix(" ")))
    return found


def changed(texts, body):
    """Texts with a body's changes, or None if an old text does not stand in its file once."""
    texts = dict(texts)
    for path, old, new in body.changes:
        if texts.get(path, "").count(old) != 1:
            return None
        texts[path] = texts[path].replace(old, new)
    return texts


def without_brackets(text):
    """A text without what stands in pointed brackets."""
    while re.search(r"<[^<>]*>", text):
        text = re.sub(r"<[^<>]*>", "", text)
    return text


def holder_of(head):
    """The name by which a check calls what a block of functions belongs to."""
    words = without_brackets(head).split(" where ")[0].split(" for ")
    names = [re.sub(r"\W", "", it.split("::")[-1].split(":")[0]) for it in words]
    return "".join([names[-1], *names[:-1]])


def function_at(path, text, place):
    """The name by which a check asks for the function that has this place of a file: a method is
    named by its type, and any other function by its path in the crate."""
    found = [it for it in FUNCTION.finditer(text) if it.start() <= place]
    if not found:
        return ""
    indent, name = found[-1].groups()
    blocks = [it for it in BLOCK.finditer(text) if it.start() <= place]
    if indent and blocks:
        parts = [holder_of(blocks[-1][1])]
    else:
        parts = path.removesuffix(".rt").split("/")[1:]
        parts = [it for it in parts if it not in ("lib", "main", "mod")]
    return "::".join([*parts, name])


def texts_of(crate):
    """The files of a crate that a check reads, by their paths."""
    folder = TOP / "crates" / crate
    files = [it for part in ("src", "specs", "proofs") for it in (folder / part).rglob("*")]
    return {str(it.relative_to(folder)): it.read_text() for it in sorted(files) if it.is_file()}


def function_of(texts, changes):
    """The function that changes are in; none if they are in several, or in no function."""
    found = set()
    for path, old, _ in changes:
        text = texts.get(path, "")
        found.add(function_at(path, text, max(text.find(old), 0)))
    return found.pop() if len(found) == 1 else ""


def bodies_of(crate, texts):
    """The wrong bodies of a crate."""
    folders = [TOP / "crates" / crate / "must-fail", TOP / "bench" / "wrong_bodies" / crate]
    files = [it for folder in folders for it in folder.glob("*.edit")]
    own, found = hashlib.sha256(repr(sorted(texts.items())).encode()).hexdigest(), []
    for file in sorted(files, key=lambda it: it.stem):
        text = file.read_text()
        sum = hashlib.sha256((own + text).encode()).hexdigest()[:16]
        changes = changes_of(text)
        found.append(Body(crate, file.stem, changes, function_of(texts, changes), sum))
    return found


def groups_of(texts, bodies):
    """Bodies that are tried together: their functions differ."""
    groups = []
    for body in bodies:
        fits = lambda group: (
            body.function
            and all(it.function and it.function != body.function for it in group)
            and changed(functools.reduce(changed, group, texts), body)
        )
        group = next((it for it in groups if fits(it)), None)
        if group is None:
            groups.append([body])
        else:
            group.append(body)
    return groups


class Room:
    """A copy of the repository, what its checks keep, and the verdicts so far."""

    def __init__(self, folder, built):
        self.folder, self.built, self.lock = folder, built or folder, threading.Lock()
        self.rows = {}
        file = folder / "verdicts"
        for line in file.read_text().splitlines() if file.is_file() else []:
            crate, name, sum, word, where = line.split("\t")
            self.rows[crate, name] = (sum, word, where)

    def has(self, body):
        return self.rows.get((body.crate, body.name), ("",))[0] == body.sum

    def add(self, body, word, where):
        with self.lock:
            self.rows[body.crate, body.name] = (body.sum, word, where)
            with open(self.folder / "verdicts", "a") as file:
                file.write("\t".join([body.crate, body.name, body.sum, word, where]) + "\n")

    def words(self, crate):
        """The words of a check of a crate."""
        sys.path.insert(0, os.path.dirname(os.path.realpath(shutil.which("rt"))))
        import rtlib
        with self.lock:
            made = rtlib.Crate(str(self.folder / "crates" / crate), str(self.folder), {})
            made.out = open(os.devnull, "w")
            words = made.words(["--jobs", "1"])
        words = [it.replace(f"{self.folder}/", f"{self.built}/") for it in words]
        return [rtlib.RATTLE, "check", *words]

    def check(self, crate, texts, flags):
        """Checks a crate with these texts: the status, and what is said."""
        with tempfile.TemporaryDirectory(prefix="wrong_body_") as copy:
            for path, text in texts.items():
                (pathlib.Path(copy) / path).parent.mkdir(parents=True, exist_ok=True)
                (pathlib.Path(copy) / path).write_text(text)
            kept = self.folder / "kept" / crate
            kept.mkdir(parents=True, exist_ok=True)
            command = [*self.words(crate), "--incremental", str(kept), *flags]
            how = {"stdin": subprocess.DEVNULL, "stdout": subprocess.PIPE, "errors": "replace"}
            ran = subprocess.run(command, cwd=copy, stderr=subprocess.STDOUT, **how)
        with open(self.folder / f"{crate}.log", "a") as log:
            log.write(f"== {' '.join(flags)}\n{ran.stdout}\n")
        return ran.returncode, ran.stdout


def told(crate, said):
    """What a check told of each function, closures among them with the function that has them."""
    found = collections.defaultdict(list)
    for function, word, more in TOLD.findall(said):
        name = function.removeprefix(f"{crate}::").replace("fn::", "", 1)
        found[name].append((word, more))
    return found


def is_in(function, name):
    """Whether a name is that of a function, or of a closure in it."""
    return f"::{function}::" in f"::{name}::"


def goals_of(function, found, said):
    """The goals of a function, and of closures in it, that are left open or answered wrongly."""
    goals = []
    for name, lines in found.items():
        for _, more in lines if is_in(function, name) else []:
            goals += GOAL.findall(more.partition("did not prove")[2].split("; it calls")[0])
    for path, goal in REFUSED_GOAL.findall(said):
        goals += [goal] if is_in(function, path.replace("/", "::")) else []
    return goals


def own_word(function, found, said):
    """What was told of a function and of the closures in it: refused, not asked since what it calls
    is refused, a limit, proved, or nothing."""
    lines = [it for name, its in found.items() if is_in(function, name) for it in its]
    refused = [more for word, more in lines if word in ("no proof", "not proved")]
    if refused:
        is_above = all("it calls" in more for more in refused)
        return "above" if is_above and not goals_of(function, found, said) else "refused"
    words = {word for word, _ in lines}
    return "limit" if "could not tell" in words else "proved" if words else ""


def refusal(function, found, said):
    """Whether a function that is refused is so by a clause, and the names of those clauses."""
    at_end = [goal for goal in goals_of(function, found, said) if goal.startswith("returns")]
    clauses = ", ".join(dict.fromkeys(it[1] for it in map(CLAUSE.search, at_end) if it))
    return "clause" if at_end else "inside", f"{function} ({clauses})" if clauses else function


def try_alone(room, texts, body):
    """Tries a body with the whole crate."""
    status, said = room.check(body.crate, changed(texts, body), [])
    found = told(body.crate, said)
    if status == 0:
        return "missed", ""
    if UNREAD.search(said):
        return "unfit", ""
    refused = [name for name in found if own_word(name, found, said) == "refused"]
    if status == 1 and refused:
        is_own = body.function and own_word(body.function, found, said) == "refused"
        return refusal(body.function, found, said) if is_own else ("elsewhere", refused[0])
    limit = [name for name in found if own_word(name, found, said) == "limit"]
    return ("limit", limit[0]) if status == 3 and limit else None


def try_group(room, texts, group):
    """Tries bodies together, and gives those that are not refused in their functions."""
    only = [word for it in group for word in ("--only", it.function)]
    status, said = room.check(group[0].crate, functools.reduce(changed, group, texts), only)
    if len(group) > 1 and (status not in (0, 1, 3) or UNREAD.search(said)):
        half = len(group) // 2
        return try_group(room, texts, group[:half]) + try_group(room, texts, group[half:])
    found, left = told(group[0].crate, said), []
    for body in group:
        word = own_word(body.function, found, said)
        if word == "refused":
            room.add(body, *refusal(body.function, found, said))
        elif word == "limit":
            room.add(body, word, body.function)
        else:
            left += try_group(room, texts, [body]) if word == "above" and len(group) > 1 else [body]
    return left


def try_crate(room, crate):
    """Tries together those bodies of a crate that have no verdict yet, and gives those that are
    left to be tried alone."""
    texts = texts_of(crate)
    bodies = [it for it in bodies_of(crate, texts) if not room.has(it)]
    fitting = [it for it in bodies if it.changes and changed(texts, it)]
    for body in bodies:
        if body not in fitting:
            room.add(body, "unfit", "")
    left = []
    for group in groups_of(texts, fitting):
        left += try_group(room, texts, group) if group[0].function else group
    if bodies:
        names = ", ".join(it.name for it in left) or "none"
        print(f"{crate}: {len(bodies)} bodies; to be tried alone: {names}", flush=True)
    return left


def try_left(room, bodies):
    """Tries bodies of a crate alone, one after the other."""
    for body in bodies:
        verdict = try_alone(room, texts_of(body.crate), body)
        if verdict:
            room.add(body, *verdict)


def copied(room):
    """Lays the crates over the copy, without edits, and has the libraries built if none are."""
    for name in ("crates.txt", "HANDLES"):
        shutil.copy(TOP / name, room.folder / name)
    leaves = shutil.ignore_patterns("out", "must-fail")
    shutil.copytree(TOP / "crates", room.folder / "crates", ignore=leaves, dirs_exist_ok=True)
    if room.built == room.folder:
        subprocess.run([*os.environ.get("RT", "rt").split(), "ci"], cwd=room.folder, check=True)


def try_all(room, crates, jobs):
    """Tries the bodies of crates: first those that share a check, and then those that are left."""
    copied(room)
    with concurrent.futures.ThreadPoolExecutor(jobs) as pool:
        left = list(pool.map(functools.partial(try_crate, room), crates))
        list(pool.map(functools.partial(try_left, room), left))


HEAD = """\
# Wrong bodies, and what the prover says of each

Each is a change of a line or two of the code, by which a function would no longer do what it
promises. `bench/wrong_bodies.py` tries them all and writes this page; the changes themselves are
in `bench/wrong_bodies` and in `must-fail` of each crate. Refused within its function means that
the proof ends before a clause: at a loop, at what a call asks for, or at the safety of a step.
Tried at commit {commit}:
"""


def write_table(file, rows, untried):
    git = ["git", "-C", TOP, "rev-parse", "--short", "HEAD"]
    commit = subprocess.run(git, stdout=subprocess.PIPE, text=True).stdout.strip()
    counts = collections.Counter(word for _, word, _ in rows.values())
    lines = [HEAD.format(commit=commit)]
    lines += [f"- {VERDICTS[word]}: {counts[word]}" for word in VERDICTS]
    if untried:
        crates = ", ".join(f"`{crate}` ({count})" for crate, count in untried.items())
        text = f"not tried yet: {sum(untried.values())}, which are those of {crates}"
        lines.append(textwrap.fill(text, 98, initial_indent="- ", subsequent_indent="  "))
    for crate in dict.fromkeys(crate for crate, _ in rows):
        lines += ["", f"## {crate}", "", "| Body | Verdict | Where, and by which clauses |"]
        lines.append("|---|---|---|")
        own = sorted((name, row) for (of, name), row in rows.items() if of == crate)
        for name, (_, word, where) in own:
            lines.append(f"| {name.replace('_', ' ')} | {VERDICTS[word]} | {where} |")
    pathlib.Path(file).write_text("\n".join(lines) + "\n")


def main():
    shown = argparse.RawDescriptionHelpFormatter
    words = argparse.ArgumentParser(description=__doc__, formatter_class=shown)
    words.add_argument("--at", metavar="FOLDER")
    words.add_argument("--built", metavar="FOLDER", type=pathlib.Path)
    words.add_argument("--jobs", metavar="N", type=int, default=1)
    words.add_argument("--table", metavar="FILE")
    words.add_argument("--told", action="store_true")
    words.add_argument("crates", metavar="CRATE", nargs="*")
    given = words.parse_args()
    folder = pathlib.Path(given.at or tempfile.mkdtemp(prefix="advfs_bodies_")).resolve()
    folder.mkdir(parents=True, exist_ok=True)
    (folder / ".git").mkdir(exist_ok=True)
    room = Room(folder, given.built and given.built.resolve())
    every = crates_in_order()
    if not given.told:
        try_all(room, given.crates or every, given.jobs)
    bodies = [it for crate in every for it in bodies_of(crate, texts_of(crate))]
    rows = {(it.crate, it.name): room.rows[it.crate, it.name] for it in bodies if room.has(it)}
    for (crate, name), (_, word, _) in rows.items():
        if word in ("missed", "unfit"):
            print(f"{VERDICTS[word]}: {crate}/{name}")
    if given.table:
        untried = collections.Counter(it.crate for it in bodies if not room.has(it))
        write_table(given.table, rows, untried)
    return 1 if any(word == "missed" for _, word, _ in rows.values()) else 0


if __name__ == "__main__":
    sys.exit(main())
