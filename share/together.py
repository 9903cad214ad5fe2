"""Tries the mutants of a crate many in one check, for ./mutants --together.

A function is proved by the contracts of what it calls, so mutants of different functions don't disturb each other. As many as have
no function in common are applied at once, and only the functions that they change are checked: each other one is taken at its word,
by a hole in place of its proof. A mutant is refused where the prover says so of a function that this mutant changes, at the lines of
that function or in the files of its proof. One of which a check of several says nothing of this kind is tried alone.
"""
import os
import re
import subprocess
from pathlib import Path

HEAD = re.compile(r"( *)(?:pub(?:\([\w: ]+\))? )?(?:const )?(?:unsafe )?fn (\w+)")
TYPE = re.compile(r"(?m)^ *(?:pub(?:\([\w: ]+\))? )?(?:struct|enum|union) (\w+)")
OWN_IMPL = re.compile(r"(?:unsafe )?impl(?:<.*?>)? (\w+)(?:<(?:(?! for )[^{])*>)? \{")
CYCLE = re.compile(r"#\[cycle\((\w+)\)\]")
# What the prover says of a function at its lines, of a written proof, and of one that only names what is gone.
AT_LINES = re.compile(r"note: (?:\./)?(src/[^:]+):(\d+):\d+: it is not proved that")
IN_PROOF = re.compile(r"(?:\./)?proofs/([^:]+)/\w+\.antt:\d+:\d+: error: (?:`([^`]*)`: )?(.*)")
ONLY_NAMES = re.compile(r"has no field|is not in scope|has no `|was not admitted")
AT_A_LIMIT = re.compile(r"antt ran out of (stack|the (steps|memory) )|(outgrew the memory limit|stopped at the step limit) \(")
NOT_READ = re.compile(r"(?:\./)?(src/[^:]+):(\d+):\d+: (?:error|.*error\[)")
HOLE = "use {stated}.{{statement}}\n\npub {name}_spec : {{M : Type 1}} → statement M\n{name}_spec 𝓤 𝓛 𝓜 𝓡 wired = ?\n"


class Function:
    """A function with a body: its lines, its name as a check prints it, and the folder of its proof below proofs/."""

    def __init__(self, file, lines, at, block):
        indent, self.name = HEAD.match(lines[at]).groups()
        ends = re.compile(indent + r"(\}|\{\})$")
        self.file, self.last = file, next(number for number, line in enumerate(lines) if number >= at and ends.match(line)) + 1
        self.first = at
        while self.first and re.match(r" *(#\[|///)", lines[self.first - 1]):
            self.first -= 1
        self.calls_itself = bool(re.search(rf"\b{self.name}\(", "\n".join(lines[at + 1 : self.last])))
        cycle = CYCLE.search("\n".join(lines[self.first : at]))
        self.cycle, self.block = cycle and cycle[1], block if indent else None
        self.is_law, self.first = lines[self.last - 1].strip() == "{}", self.first + 1
        self.key = file, self.block, self.name

    def place(self, folder, home):
        """Tells its name and where its proof lies, from the files of the crate's proofs and the modules of its types."""
        self.module = modules_of(self.file)
        own = OWN_IMPL.match(self.block) if self.block else None
        # A method of a trait has no name that its source shows, so that its whole module is checked.
        self.is_named = bool(own or not self.block)
        inside = [*(home.get(own[1], self.module) if own else self.module), *([own[1]] if own else [])]
        self.path = "::".join([*inside, self.name] if self.is_named else self.module)
        if not self.cycle and Path(folder, "proofs", *inside, f"+{self.name}").is_dir():
            self.cycle = self.name
        self.proof = [*inside, self.name]
        if self.cycle:
            below = [[*inside, f"+{self.cycle}"], [*self.module, f"+{self.cycle}"], [f"+{self.cycle}"]]
            self.proof = next((at for at in below if Path(folder, "proofs", *at).is_dir()), None)


def modules_of(file):
    return [] if file in ("src/lib.rt", "src/main.rt") else file[len("src/") : -len(".rt")].split("/")


def functions_of(file, text):
    """The functions of a file that have a body, in order."""
    lines, made, block = text.split("\n"), [], None
    for at, line in enumerate(lines):
        if re.match(r"(?:unsafe )?impl\b|(?:pub )?trait\b", line):
            block = line
        elif line.startswith("}"):
            block = None
        head = HEAD.match(line)
        if head and has_body(lines[at:], head[1]):
            made.append(Function(file, lines, at, block))
    return made


def has_body(lines, indent):
    """Whether a brace opens the function's body before its declaration ends in a semicolon."""
    for line in lines:
        if line == indent + "{}" or line.endswith("{"):
            return True
        if line.rstrip().endswith(";"):
            return False
    return False


class Mutant:
    """An edit of a crate: the texts that it changes, in order."""

    def __init__(self, path):
        self.name, self.pairs = path.stem, []
        file = old = ""
        for line in path.read_text(encoding="utf-8").split("\n"):
            word, _, rest = line.partition(": ")
            if word == "file":
                file = rest.strip()
            elif word == "old":
                old = rest
            elif line.startswith("new:"):
                self.pairs.append((file, old, line[len("new:") :].removeprefix(" ")))

    def applied(self, texts):
        """The texts with this edit and the keys of the functions that it changes, or none and why it can't be applied."""
        texts, keys = dict(texts), set()
        for file, old, new in self.pairs:
            count = texts.get(file, "").count(old)
            if count != 1:
                return None, f"an 'old:' text is in {file} {count} times, and not once"
            first = texts[file][: texts[file].index(old)].count("\n") + 1
            last = first + old.count("\n")
            functions = functions_of(file, texts[file])
            held = [it for it in functions if it.first <= first and last <= it.last]
            # What stands in no function, as a constant, is that of the whole file.
            keys |= {it.key for it in held[-1:] or functions}
            texts[file] = texts[file].replace(old, new)
        return texts, keys


class Crate:
    """A crate in a copy of the repository, whose files may be changed."""

    def __init__(self, folder):
        self.folder, self.name = folder, folder.name
        self.texts = {str(it.relative_to(folder)): it.read_text(encoding="utf-8") for it in folder.glob("src/**/*.rt")}
        self.proofs = {it: it.read_text(encoding="utf-8") for it in folder.glob("proofs/**/*.antt")}
        self.home = {name: modules_of(file) for file, text in self.texts.items() for name in TYPE.findall(text)}

    def functions(self, texts):
        found = {it.key: it for file, text in texts.items() for it in functions_of(file, text)}
        for it in found.values():
            it.place(self.folder, self.home)
        return found

    def write(self, texts, functions, changed):
        """Writes these sources, with a hole for the proof of each function that none of those changed is."""
        for file, text in texts.items():
            (self.folder / file).write_text(text, encoding="utf-8")
        cycles = {it.cycle for it in changed if it.cycle}
        whole = {it.file for it in changed if not it.is_named}
        for it in functions.values():
            is_checked = it in changed or it.cycle in cycles or it.file in whole
            if is_checked or it.is_law or not it.is_named or not it.proof or it.name == "main":
                continue
            # The proof of a function that calls itself has another place. Where nothing is written of it, that is left to the prover.
            if it.calls_itself and not it.cycle:
                continue
            at = Path(self.folder, "proofs", *it.proof)
            at.mkdir(parents=True, exist_ok=True)
            for name in ("Answers.antt", "Invariants.antt"):
                (at / name).unlink(missing_ok=True)
            stated = ".".join(["Rattle", self.name, "proofs", *it.proof, *([] if it.cycle else ["Statement"])])
            (at / "Proof.antt").write_text(HOLE.format(stated=stated, name=it.proof[-1]), encoding="utf-8")

    def put_back(self):
        for it in self.folder.glob("proofs/**/Proof.antt"):
            it.unlink()
        for path, text in self.proofs.items():
            path.parent.mkdir(parents=True, exist_ok=True)
            path.write_text(text, encoding="utf-8")
        for file, text in self.texts.items():
            (self.folder / file).write_text(text, encoding="utf-8")

    def checked(self, mutants, texts):
        """What a check of the mutants' functions prints, and these functions, for each mutant."""
        functions = self.functions(texts)
        of_each = {it: [functions[key] for key in it.keys if key in functions] for it in mutants}
        changed = {it for found in of_each.values() for it in found}
        only = sorted({f"--only={self.name}::{it.path}" for it in changed})
        self.write(texts, functions, changed)
        try:
            words = ["rt", "check", "--allow-holes", "--short-goals", *only]
            ran = subprocess.run(words, cwd=self.folder, env=os.environ, stdout=subprocess.PIPE, stderr=subprocess.STDOUT, text=True, errors="replace")
        finally:
            self.put_back()
        return ran.stdout.split("\n"), of_each, functions


def refusals(lines, own, functions):
    """The lines in which the prover refuses one of these functions, those that only name what is gone last."""
    strong, weak = [], []
    for it in own:
        members = [other for other in functions.values() if it.cycle and other.cycle == it.cycle]
        for line in lines:
            at = AT_LINES.match(line)
            if at and at[1] == it.file and it.first <= int(at[2]) <= it.last:
                strong.append(line)
            at = IN_PROOF.match(line)
            if not at or not it.proof or at[1].split("/") != it.proof:
                continue
            # The goals of a cycle begin with the name of the function that they are of.
            if len(members) < 2 or re.match(rf"{it.name}-|.*-{it.name}$", at[2] or ""):
                (weak if ONLY_NAMES.search(at[3]) else strong).append(line)
    told = [f", as it must be: {it}" for it in strong]
    return told + [f", as it must be (only because a proof file names what the edit took away, so this says little of the contract): {it}" for it in weak]


def unread_in(lines, own):
    """The lines that say that these functions can't be read."""
    found = [(line, NOT_READ.match(line)) for line in lines]
    return [line for line, at in found if at and any(it.file == at[1] and it.first <= int(at[2]) <= it.last for it in own)]


def answer_alone(lines, own):
    """What a check of one mutant says of it where it refuses nothing."""
    unread = [] if any(line.startswith("only=") for line in lines) else unread_in(lines, own)
    said = [line for line in lines for it in own if re.match(rf"fn \w+::(.*::)?{it.name}: ", line)]
    if unread:
        return "BAD EDIT", f": {unread[0]}"
    limit = next((line for line in lines if AT_A_LIMIT.search(line)), None)
    if limit:
        return "refused", f", as it must be (only by a limit of the prover, which gave no verdict): {limit}"
    if said and all(re.search(r": (no holes|depends on a hole|proved)", line) for line in said):
        return "NOT REFUSED", ": the function is still proved with this edit"
    return "NOT TRIED", f": {' '.join(said or lines[-3:])}"


def batch_of(pending, texts):
    """The first mutants that have no function in common, the texts with them, and those that are left."""
    batch, left, used = [], [], set()
    for it in pending:
        made, keys = it.applied(texts) if not it.keys & used else (None, "")
        if made is None:
            left.append(it)
        else:
            batch.append(it)
            texts, used = made, used | keys
    return batch, texts, left


def tried(folder):
    """What comes to each mutant of the crate in this folder, as its verdict and what is said of it, in the order in which it is known."""
    crate, pending, alone = Crate(folder), [], []
    for it in map(Mutant, sorted(folder.glob("must-fail/*.edit"))):
        made, it.keys = it.applied(crate.texts)
        if made is None:
            yield it.name, ("BAD EDIT", f": {it.keys}")
        else:
            pending.append(it)
    while pending or alone:
        if pending:
            batch, texts, pending = batch_of(pending, crate.texts)
        else:
            batch, texts = [alone[0]], alone[0].applied(crate.texts)[0]
            del alone[0]
        lines, of_each, functions = crate.checked(batch, texts)
        is_ended = any(line.startswith("only=") for line in lines)
        faulty = [] if is_ended else [it for it in batch if unread_in(lines, of_each[it])]
        for it in batch:
            refused = refusals(lines, of_each[it], functions) if is_ended else []
            if refused:
                yield it.name, ("refused", refused[0])
            elif len(batch) == 1:
                yield it.name, answer_alone(lines, of_each[it])
            elif faulty and it not in faulty:
                # What another one kept from the prover is tried once more without it.
                pending.append(it)
            else:
                alone.append(it)
