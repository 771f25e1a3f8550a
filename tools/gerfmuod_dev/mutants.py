"""Tries mutants: small changes of a function's body, each of which the prover has to refuse.

Without a name, tries those of the crates that changed since their mutants were last tried. The gate tries those of crates/NAME/must-fail;
all others are in crates/NAME/mutants, which also has what killed each mutant of the crate. The verdicts are current as long as the crate's
own files, its mutants, and the definitions of lower crates that it can see by its imports say the same: comments, line breaks and the
toolchain do not count. Mutants of different functions are tried in one check, and those that it does not kill each in a check of its own.
Prints a line for each crate that is proved before, for each mutant, and for each crate. A run which is cut off goes on where it was. The
status is 1 if a mutant survives, or, with --stale, if verdicts are not current or a mutant cannot be applied.
"""
import datetime
import functools
import hashlib
import itertools
import json
import os
import re
import shutil
import subprocess
from concurrent.futures import ThreadPoolExecutor

from . import mutant_files, repository, running, together, visible
from .build import checkouts, prove_all, renew
from .mutant_files import Fault, mutants_of
from .repository import text_of

# a string, a character, a comment, a bracket or a mark, or a word
PART = re.compile(r""""(?:\\.|[^"\\])*"|'(?:\\[^'\n]+|[^'\\\n])'|(?<!\S)(?://|--)[^\n]*|[(){}\[\],;]|[^\s(){}\[\],;"]+""")
# a declaration of a hand-written proof
DECLARED = re.compile(r"^(?:pub )?([\w-]+) : .*?(?=\n\n|\Z)", re.M | re.S)
# how many mutants the gate has, and in how many crates: each of them costs a whole check more
MOST_MUTANTS, MOST_CRATES = 60, 14
# what a message has if no clause killed the mutant
ALIVE = re.compile(r"NOT REFUSED|NOT TRIED|BAD EDIT|\(only because|\(only by a limit")
# a message that is no verdict: a further run may have another one
UNDECIDED = re.compile(r"NOT TRIED|BAD EDIT|\(only by a limit")


@functools.lru_cache(maxsize=None)
def toolchain():
    return subprocess.run(["rt", "version"], stdout=subprocess.PIPE, text=True, check=True).stdout.strip()


@functools.lru_cache(maxsize=None)
def meaning(text):
    """Returns a text without its comments, blanks and line breaks."""
    text = visible.one_a_line(text)
    parts = " ".join(part for part in PART.findall(text) if not part.startswith(("//", "--")))
    # (the layout adds a last comma or semicolon, and a first bar, if a list is on several lines)
    return re.sub(r"[,;] (?=[)}\]])|(?<=\[ )\| ", "", parts)


def hash_of(texts):
    """Returns a hash of texts, given as pairs of a name and a text."""
    result = hashlib.sha256()
    for name, text in texts:
        result.update(f"{name}\n{text}\n".encode())
    return result.hexdigest()


def texts_seen(crate):
    """Returns the texts that a crate's proofs depend on, by name: its files, and the definitions of lower crates that it can see."""
    parts = visible.definitions_seen(crate)
    seen = [(f"{part.kind} {part.path} {part.name}", meaning(visible.text_of_part(part))) for part in parts]
    return [(path, meaning(text_of(path))) for path in crate.sources()] + seen


def digest(crate):
    """Returns a hash of all that the verdicts on a crate's mutants depend on, among it the mutants, but not the verdicts."""
    return hash_of([*texts_seen(crate), *((name, mutant.text) for name, mutant in sorted(mutants_of(crate.name).items()))])


def untried(crate):
    killers = mutant_files.file_of(crate.name).killers
    return [name for name in mutants_of(crate.name) if name not in killers]


def is_current(crate):
    return mutant_files.file_of(crate.name).notes.get("of") == digest(crate) and not untried(crate)


def goals_with(step, answers):
    """Returns the goals that a hand-written proof proves with this step of it; for a goal, the goal itself."""
    parts = {match[1]: match[0] for match in DECLARED.finditer(answers)}
    named = [step]
    for name in named:
        used = rf"(?<![\w.-]){re.escape(name)}(?![\w-])"
        named += [other for other, text in parts.items() if other not in named and re.search(used, text)]
    return [name for name in parts if name in named and f" : goal.{name}\n" in parts[name]]


def killer_of(crate, message):
    """Returns the function and the clause that a line of the prover names, or the line itself if it names none; an empty text if no clause
    killed the mutant. If the line names a step of a hand-written proof, the clauses that are proved with this step come with it."""
    if ALIVE.search(message):
        return ""
    proof = re.search(r"\./proofs/(\S+)/\w+\.antt:\d+:\d+: \w+: (?:.* depend on )?`([^`]+)`", message)
    # (the prover's line may be cut off)
    if not (place := proof or re.search(r"(src/\S+\.rt):\d+:\d+: .*\(`([^`]+)", message)):
        return re.sub(r"^refused, as it must be:? ?", "", message)
    goals = goals_with(place[2], text_of(f"crates/{crate}/proofs/{place[1]}/Answers.antt", "")) if proof else []
    return ", ".join([place[1], place[2]] + ([] if place[2] in goals else [f"for {goal}" for goal in goals]))


def try_alone(crate, names, lanes, room):
    """Tries mutants of a crate each in a check of its own, several at a time, in a copy; returns the prover's message for each."""
    folder = f"{room}/crates/{crate.name}/must-fail"
    os.makedirs(folder)
    for name in names:
        running.write(f"{folder}/{name}.edit", mutants_of(crate.name)[name].text)
    result = running.run(["rt", "must-fail", crate.name], cwd=room, env={**os.environ, "RT_JOBS": str(lanes)}, stderr=None, timeout=None)
    shutil.rmtree(folder)
    return dict(re.findall(r"^rt: must-fail \w+/(\S+)\.edit: (.*)", result.out.decode(errors="replace"), re.M))


class Verdicts:
    """What the prover said of each mutant of a crate, by name. A verdict of an earlier run that was cut off is taken over if what the
    crate's proofs depend on, the mutant and the toolchain are the same: their digest is its key."""

    def __init__(self, crate):
        self.crate, self.path = crate, f"crates/{crate.name}/out/mutants.json"
        basis = hash_of([*texts_seen(crate), ("", toolchain())])
        self.keys = {name: hash_of([(basis, mutant.text)]) for name, mutant in mutants_of(crate.name).items()}
        kept = json.loads(text_of(self.path, "{}"))
        self.messages = {name: kept[key] for name, key in self.keys.items() if key in kept}
        if self.messages:
            print(f"{crate.name}: {len(self.messages)} verdicts taken over from a run that was cut off", flush=True)

    @property
    def left(self):
        return [name for name in self.keys if name not in self.messages]

    def add(self, messages):
        for name, message in messages.items():
            killer, alive = killer_of(self.crate.name, message), "SURVIVED" if "NOT REFUSED" in message else "NOT KILLED by a clause"
            print(f"{self.crate.name}/{name}: {f'killed: {killer}' if killer else f'{alive}: {message}'}", flush=True)
        self.messages.update(messages)
        decided = {self.keys[name]: message for name, message in self.messages.items() if not UNDECIDED.search(message)}
        os.makedirs(os.path.dirname(self.path), exist_ok=True)
        os.replace(running.write(f"{self.path}.new", json.dumps(decided)), self.path)

    def record(self):
        killers = {name: killer_of(self.crate.name, message) for name, message in self.messages.items()}
        if is_well := not self.left and all(killers.values()):
            mutant_files.write(self.crate.name, killers, {"of": digest(self.crate), "by": toolchain(), "on": f"{datetime.date.today()}"})
        result = f"{len(self.keys)} mutants killed" if is_well else "NOT EACH of its mutants was killed by a clause"
        print(f"{self.crate.name}: {result}", flush=True)
        return is_well


def try_all(crates, top, copies):
    """Tries mutants of different functions in one check, and those that survive each in one of its own; returns whether each was killed."""
    kept, verdicts, free = {crate: f"{top}/kept/{crate.name}" for crate in crates}, {crate: Verdicts(crate) for crate in crates}, [*copies]
    for crate, place in kept.items():
        proved = f"crates/{crate.name}/out/incremental"
        if not os.path.exists(proved):
            # (its library was taken over from another checkout of this machine)
            running.run(["rt", "check", "--jobs=1"], cwd=f"crates/{crate.name}", check=True, timeout=None)
        # (what the check of the crate without mutants left, with which a further check begins)
        renew(proved, place)

    def run_jobs(action, jobs):
        """Runs an action for each job, each in a copy that no other one uses, and keeps the verdicts that it returns."""

        def run_job(job):
            room = free.pop()
            try:
                return action(room, *job)
            finally:
                free.append(room)

        with ThreadPoolExecutor(len(copies)) as lanes:
            for (crate, *_), messages in zip(jobs, lanes.map(run_job, jobs)):
                verdicts[crate].add(messages)

    # (the crates at the top take longest)
    groups = [(crate, group) for crate in reversed(crates) for group in together.groups_in(crate.name, verdicts[crate].left)]
    run_jobs(lambda room, crate, group: together.try_group(crate.name, room, kept[crate], group), groups)
    left = [(crate, verdicts[crate].left) for crate in crates if verdicts[crate].left]
    for (crate, _), room in itertools.product(left, copies):
        renew(kept[crate], f"{room}/crates/{crate.name}/out/incremental")
    lanes = max(1, len(copies) // max(1, len(left)))
    run_jobs(lambda room, crate, names: try_alone(crate, names, lanes, room), left)
    return all([verdict.record() for verdict in verdicts.values()])


def redigest(crate):
    file, missing = mutant_files.file_of(crate.name), untried(crate)
    for name in missing:
        print(f"{crate.name}/{name} was never tried: make mutants CRATE={crate.name}")
    if not missing and not is_current(crate):
        day = f"{file.notes['on'].partition(',')[0]}, carried over on {datetime.date.today()}"
        mutant_files.write(crate.name, file.killers, {**file.notes, "of": digest(crate), "on": day})
        print(f"{crate.name}: carried over {len(mutants_of(crate.name))} mutants")
    return not missing


def faults_of(name):
    """Returns why mutants of a crate cannot be read or applied, a line each."""
    try:
        return list(filter(None, (mutant_files.fault_of(name, mutant) for mutant in mutants_of(name).values())))
    except Fault as fault:
        return [str(fault)]


def print_stale(tally, crates):
    """Prints the mutants that cannot be applied, the crates whose mutants have to be tried anew, and how many mutants there are."""
    of_gate, elsewhere = [], 0
    for name, crate in crates.items():
        faults = faults_of(name)
        for line in faults:
            tally.fails(line)
        if not faults and mutants_of(name):
            tally.judge(is_current(crate), f"{name} changed since its mutants were tried: make mutants")
            of_gate += [name for mutant in mutants_of(name).values() if mutant.in_gate]
            elsewhere += len(mutant_files.file_of(name).mutants)
    is_rule = len(of_gate) <= MOST_MUTANTS and len({*of_gate}) <= MOST_CRATES
    most = "" if is_rule else f" (at most {MOST_MUTANTS} in {MOST_CRATES} is the rule)"
    print(f"The gate has {len(of_gate)} mutants in {len({*of_gate})} crates{most}; {elsewhere} more are in crates/*/mutants.")


def arguments(parser):
    which = parser.add_mutually_exclusive_group()
    which.add_argument("--all", action="store_true", help="of every crate")
    which.add_argument("--stale", action="store_true", help="try nothing: print the crates whose verdicts are not current, and faults")
    redigest_help = "try nothing: keep the verdicts of these crates after a change of names or layout alone; the crate's file then says so"
    which.add_argument("--redigest", nargs="+", metavar="NAME", help=redigest_help)
    which.add_argument("names", nargs="*", default=[], metavar="NAME", help="of these crates")


def run(options):
    crates = repository.crates()
    if options.stale:
        return print_stale(options.tally, crates)
    wanted = list(dict.fromkeys(options.redigest or options.names))
    faults = [f"no mutants: {name}" for name in wanted if name not in crates or not faults_of(name) and not mutants_of(name)]
    if faults := faults or [fault for name in wanted or crates for fault in faults_of(name)]:
        print("\n".join(faults))
        return 1
    having = [crate for crate in crates.values() if mutants_of(crate.name)]
    chosen = [crate for crate in having if (crate.name in wanted if wanted else options.all or not is_current(crate))]
    if options.redigest:
        return 0 if all([redigest(crate) for crate in chosen]) else 1
    names = [crate.name for crate in chosen]
    if not prove_all(names):
        return 1
    with checkouts(repository.crates(names)) as (top, copies):
        return 0 if try_all(chosen, top, copies) else 1
