#!/usr/bin/env python3
"""Holds the definitions of crate etf, and of crate gantt the page, to the reference on random small jobs, before there is code or
proof.

    definitions.py [seed=N] [jobs=N]     a random seed, which is printed, and 40 jobs if not told

It copies the definitions, and what they cite in the crates below, to target/definitions: no law, no theorem and no function, so
that a changed definition can be tried before the laws are mended. Beside them it writes a crate `held` with a theorem a job, each
by computing the definitions: the plan, its end, C, the least C, the dearest chain, each result's time and the dearest, the rounds
and the arrivals, all of these by number and by weight; the weights and the order by them; the square of costs, the checker's answers
to some plans, and the pages of those that are good. `rt check` then says which do not hold. What is expected is by the reference alone,
tests/rules.py. Of eight jobs three are drawn until a walk's idle board, predecessor or first step makes a difference to the least C.

Status 1: the definitions and the reference differ. Status 2: they cannot be compared, as a definition does not check.
"""
import random
import re
import shutil
import sys
from pathlib import Path

TOP = Path(__file__).resolve().parent.parent
sys.path[:0] = [str(TOP / "tests"), str(TOP / "tools")]
sys.dont_write_bytecode = True
import rules  # noqa: E402
from kelvrist.crates import Crates, kept, rt, sources  # noqa: E402
from kelvrist.inout import Trouble  # noqa: E402
from vectors.leasts import NARROWER, tells  # noqa: E402

FOLDER = TOP / "target" / "definitions"
CRATE, PAGE = "etf", "gantt"  # the second is above the first
MODULES = {CRATE: "Instance Schedule Rule Cover Least Dearest Checker Topology OfJob Weight", PAGE: "Page"}  # what they cite is found
MOST_VISITS = 5000  # where there are some hundred thousand, the prover comes to its limit of steps
CITED = re.compile(r"^(?:pub )?use Rattle\.(?!std\b)(\w+)\.specs\.([\w.]+)\.\{", re.M)
COMPUTES, SHORT = re.compile(r"^ *unfoldable pub (\S+) :", re.M), re.compile(r"^ *abbrev pub (\S+) :", re.M)
RESULTS = "result_of result_time dearest_result end".split()  # brought in where they only abbreviate, too
OWN = "none some bind or_else refl map flat_map get_or tasks finish wire link result job number_of seen checked drawn".split()  # of HEAD
HEAD = """-- Made by tests/definitions.py.
use Rattle.std.proofs.Math.Option.{{Option, none, some, bind, or_else}}
use Rattle.std.specs.Prelude.{{◌≡◌, refl, ℕ, get_or}}
use mathlib.Core.List.{{List, [], ◌∷◌, ◌++◌, map, flat_map}}
use Rattle.job.specs.Job.{{Wire, Edge, Result, Job}}
use Rattle.etf.specs.Instance.{{Instance, tasks}}
use Rattle.etf.specs.Schedule.{{Placement, finish}}
{uses}

abbrev wire : ℕ → ℕ → ℕ → Wire
wire p q c = record {{ from = p; to = q; cost = c }}

abbrev link : ℕ → ℕ → ℕ → Edge
link a b k = record {{ from = a; to = b; count = k }}

abbrev result : ℕ → ℕ → Result
result T k = record {{ task = T; count = k }}

abbrev job : ℕ → ℕ → ℕ → List Wire → List ℕ → List Edge → List Result → Job
job n w c ws ts es rs = record {{
  platform = record {{ processors = n; topology = w; unit = c }};
  wires = ws;
  tasks = ts;
  edges = es;
  results = rs;
}}

abbrev number_of : Option ℕ → ℕ
number_of none = 0
number_of (some k) = k

seen : Instance → (ℕ → ℕ) → List (List ℕ)
seen I r =
    map (λ (u : Placement). u.task ∷ u.processor ∷ u.start ∷ finish I u ∷ result_time I r u ∷ []) (by_task I (planned I))
    ++ ((end I r (planned I) ∷ cover I ∷ least I ∷ dearest I ∷ dearest_result I r (planned I) ∷ rounds I ∷ [])
    ∷ map (λ T. map (λ P. arrival I (planned I) T P) (upto I.processors)) (upto (tasks I)))

checked : Instance → List ℕ → List ℕ → ℕ
checked I ps ss = number_of (check I (schedule_of I (λ T. get_or ps T 0) (λ T. get_or ss T 0)))

drawn : Instance → List ℕ → List ℕ → List ℕ
drawn I ps ss = page I (schedule_of I (λ T. get_or ps T 0) (λ T. get_or ss T 0))
"""


# ---- the definitions

def cited(crates):
    """The text of each module that the definitions are made of, by crate and name: those that hold them and all that these cite."""
    found, todo = {}, [(crate, module) for crate, modules in MODULES.items() for module in modules.split()]
    while todo:
        crate, module = todo.pop()
        if (crate, module) in found or module.startswith("declared."):  # what is declared in src/ has no file
            continue
        file = crates.folder(crate) / "specs" / (module.replace(".", "/") + ".antt")
        if not file.is_file():
            raise Trouble(f"{file.relative_to(TOP)} is no file")
        found[crate, module] = file.read_text()
        todo += CITED.findall(found[crate, module])
    return found


def types_alone(text):
    """A source file's text without `impl` blocks, traits and ghost fields: these name definitions that are left out."""
    text = re.sub(r"^(?:impl|(?:pub )?trait)\b.*?^\}\n", "", text, flags=re.M | re.S)
    return re.sub(r"^    ghost \w+: \{.*?\},\n", "", text, flags=re.M | re.S)


def write_crate(crates, crate, modules, left):
    """A crate with these modules alone: the types of its source, no function, no law, and nothing of the crates that are left out."""
    place, listed = FOLDER / "crates" / crate, {}
    (place / "src").mkdir(parents=True)
    unused = ("ghost use", *(f"use {other}::" for other in left))
    for file in sources(crates.folder(crate)):
        lines = types_alone(kept(file, set())).splitlines(True)
        (place / "src" / file.name).write_text("".join(line for line in lines if not line.startswith(unused)))
    for module in modules:
        parts = module.split(".")
        for depth, part in enumerate(parts):
            listed.setdefault(".".join(parts[:depth]) or "Lib", set()).add(part)
    lists = {module: "".join(f"pub mod {part}\n" for part in sorted(parts)) for module, parts in listed.items()}
    for module, text in {**lists, **modules}.items():
        file = place / "specs" / (module.replace(".", "/") + ".antt")
        file.parent.mkdir(parents=True, exist_ok=True)
        file.write_text(text)


def brought_in(modules):
    """The lines that bring in each name that computes, and the names: those of CRATE as they are, one that is taken by another."""
    uses, names = [], []
    for (crate, module), text in sorted(modules.items(), key=lambda one: (one[0][0] != CRATE, one[0])):
        some = COMPUTES.findall(text)
        here = [name if name not in (*OWN, *names) else f"{name}-{crate}-{module.replace('.', '-')}" for name in some]
        named = [name if name == as_here else f"{name} as {as_here}" for name, as_here in zip(some, here)]
        named += [name for name in SHORT.findall(text) if crate == CRATE and name in RESULTS]
        uses += [f"use Rattle.{crate}.specs.{module}.{{{', '.join(named)}}}"] if named else []
        names += here
    return uses, names


# ---- the theorems

def numbers(values):
    return "(" + " ∷ ".join([str(v) for v in values] + ["[]"]) + ")"


def rows(lists):
    return "(" + " ∷ ".join([numbers(l) for l in lists] + ["[]"]) + ")"


def made(name, lists):
    """The list of what a name makes of some numbers each."""
    return "(" + " ∷ ".join([" ".join(map(str, (name, *given))) for given in lists] + ["[]"]) + ")"


def some_job(dice):
    m, n = dice.randint(1, 9), dice.randint(1, dice.choice((2, 4, 16)))
    pairs = [(a, b) for b in range(m) for a in range(b)]
    share = dice.choice((0.15, 0.3, dice.random()))
    links = [(a, b, dice.randint(1, 4)) for a, b in sorted(pairs) if dice.random() < share]
    wiring, unit, durations = dice.choice((0, 1, 2, 3, 3, 3)), dice.randint(0, 3), [dice.randint(1, 8) for _ in range(m)]
    if wiring == 3:
        most = dice.choice((2, 9, 250))
        job = rules.wired(n, [dice.randint(0, most) for _ in rules.pairs_due(n)], durations, links, unit)
    else:
        job = rules.job(n, wiring, unit, durations, links)
    job.results = some_results(dice, job)
    return job


def visits(job, plan):
    """How often the definition of the least C comes to a step, at most, from one that finishes last: it takes the walks one by one."""
    count = []
    for step in range(len(job.steps)):
        count.append(1 + sum(count[before] for _, before in rules.walk_choices(job, plan, step) or []))
    return max(count)


def some_jobs(dice, count):
    """So many jobs that can be computed. Of eight three are such that the least C is another where one choice of a walk is not left
    open: board, predecessor, first step."""
    tellings = list(NARROWER.values())
    for i in range(count):
        told_by = tellings[i % 8 : i % 8 + 1]
        jobs = (some_job(dice) for _ in range(100_000))
        yield next(job for job in jobs if all(tells(other, job, "number") for other in told_by)
                   and all(visits(job, rules.plan(job, ties)) <= MOST_VISITS for ties in ("number", "weight")))


def some_results(dice, job):
    """Results of none of the steps that may have one, of some or of all."""
    share, most = dice.choice((0, 0.5, 1, 1)), dice.choice((1, 5, 1000))
    return [(step, dice.randint(1, most)) for step in rules.last_steps(job) if dice.random() < share]


def some_plans(dice, job, plan):
    """The planner's plan, all of it later, by which w of its page changes, and some like it with a board or a start changed."""
    yield list(plan.board), list(plan.start)
    ticks = max(0, dice.choice((64, 65, 127, 128, 129, 192)) - plan.last)
    yield list(plan.board), [start + ticks for start in plan.start]
    for _ in range(4):
        boards, starts = list(plan.board), list(plan.start)
        for _ in range(dice.randint(1, 2)):
            t = dice.randrange(len(starts))
            if dice.random() < 0.3:
                boards[t] = dice.randint(0, job.boards)
            else:
                starts[t] = max(0, starts[t] + dice.choice((-2, -1, 1, 2, 600_000_001 - starts[t], 600_000_000 - starts[t])))
        yield boards, starts


def seen(job, plan):
    """The rows of a plan: its steps, its figures and its arrivals."""
    m, n, durations = len(job.steps), job.boards, job.durations
    times = dict(rules.result_times(job, plan.board))
    lines = [(t, plan.board[t], plan.start[t], plan.start[t] + durations[t], times.get(t, 0)) for t in range(m)]
    lines.append((plan.end, *rules.figures(job, plan), rules.dearest_result(job, plan), plan.rounds))
    return lines + [plan.arrival[16 * t : 16 * t + n] for t in range(m)]


def theorem(i, job, dice, names):
    plan, weights = rules.plan(job), rules.weights(job)
    m, n, durations = len(job.steps), job.boards, job.durations
    wires, links, results = made("wire", job.wires), made("link", job.links), made("result", job.results)
    text = [f"abbrev job-{i} : Job", f"job-{i} = job {n} {job.wiring} {job.unit} {wires} {numbers(durations)} {links} {results}", ""]
    below = 0
    for name, of, made_plan in (("plan", "instance", plan), ("by-weight", "instance_by_weight", rules.plan(job, "weight"))):
        below += rules.least(job, made_plan) < rules.cover(job, made_plan)
        text += [f"{name}-{i} : seen ({of} job-{i}) (result_of job-{i}) ≡ {rows(seen(job, made_plan))}"]
        text += [f"unfolding seen bind flat_map {names}", f"{name}-{i} = refl", ""]
    order = sorted(range(m), key=lambda t: (-weights[t], t))
    text += [f"weights-{i} : map (weight (instance job-{i})) (upto {m}) ∷ tasks_by_weight (instance job-{i}) ∷ [] ≡ {rows([weights, order])}"]
    text += [f"unfolding bind flat_map {names}", f"weights-{i} = refl", ""]
    text += [f"square-{i} : costs_of job-{i} ≡ {rows(rules.square(job))}", f"unfolding {names}", f"square-{i} = refl", ""]
    found = []
    for k, (boards, starts) in enumerate(some_plans(dice, job, plan)):
        answer = rules.check(job, boards, starts)
        found.append(answer)
        text += [f"check-{i}-{k} : checked (instance job-{i}) {numbers(boards)} {numbers(starts)} ≡ {answer}"]
        text += [f"unfolding checked or_else {names}", f"check-{i}-{k} = refl", ""]
        if answer == 0:
            page = " ++ ".join(f'text "{row}\\n"' for row in rules.page(job, boards, starts).decode().splitlines())
            text += [f"page-{i}-{k} : drawn (instance job-{i}) {numbers(boards)} {numbers(starts)} ≡ {page}"]
            text += [f"unfolding drawn flat_map {names}", f"page-{i}-{k} = refl", ""]
    return "\n".join(text), found, below


def write(count, dice):
    """Writes the crates. Gives how many lines of Held.antt stand before its theorems, the answers that the plans get, and how many of
    the planner's, by number and by weight, have a least C below C."""
    crates = Crates()
    modules = cited(crates)
    needed = [crate for crate in [*crates.below(PAGE), PAGE] if any(crate == of for of, _ in modules)]
    left = [crate for crate in crates.line if crate not in needed]
    lines, names = brought_in(modules)
    head = HEAD.format(uses="\n".join(lines))
    theorems = [theorem(i, job, dice, " ".join(names)) for i, job in enumerate(some_jobs(dice, count))]
    shutil.rmtree(FOLDER / "crates", ignore_errors=True)
    for crate in needed:
        write_crate(crates, crate, {module: text for (of, module), text in modules.items() if of == crate}, left)
    held = FOLDER / "crates" / "held"
    for folder in (held / "src", held / "specs"):
        folder.mkdir(parents=True)
    uses = {crate: [used for used in crates.uses[crate] if used not in left] for crate in needed}
    (FOLDER / "crates.txt").write_text("".join(f"{crate}: {' '.join(used)}\n" for crate, used in {**uses, "held": needed}.items()))
    (held / "src" / "lib.rt").write_text("// No functions.\n")
    (held / "specs" / "Lib.antt").write_text("pub mod Held\n")
    (held / "specs" / "Held.antt").write_text(head + "\n" + "\n".join(text for text, _, _ in theorems))
    return head.count("\n"), [answer for _, found, _ in theorems for answer in found], sum(below for _, _, below in theorems)


# ---- what rt says of them

def stop(status, what, errors):
    """Ends the program with a line on what is wrong, after the first errors."""
    for error in errors[:5]:
        print(error.replace(f"{FOLDER}/", "")[:500], file=sys.stderr)
    print(what, file=sys.stderr)
    sys.exit(status)


def judge(status, said, head):
    """Ends the program where the theorems are not proved: for a definition that does not check, or for a difference."""
    errors = [line for line in said.splitlines() if re.search(r": error\b", line)]
    unproved = re.search(r"^rt: the library (\w+) did not build", said, re.M)
    if unproved:
        stop(2, f"cannot compare: the definitions in crate {unproved.group(1)} do not check", errors)
    if status == 0 and "logic=proved" in said:
        return
    places = [re.search(r"Held\.antt:(\d+):", error) for error in errors]
    if "logic=not-proved" not in said or not all(places) or any(int(place.group(1)) <= head for place in places):
        stop(2, "cannot compare: crate held, which this test writes, does not check", errors or said.splitlines()[-5:])
    where = (FOLDER / "crates" / "held" / "specs" / "Held.antt").relative_to(TOP)
    stop(1, f"the definitions and the reference differ in {len(errors)} theorems of {where}", errors)


def main(words):
    told = {"seed": "", "jobs": ""}
    for word in words:
        name, _, value = word.partition("=")
        if name not in told or value and not value.isdigit():
            sys.stderr.write(__doc__)
            sys.exit(2)
        told[name] = value
    seed = int(told["seed"] or random.randrange(10**6))
    count = int(told["jobs"] or 40)
    print(f"seed {seed}, {count} jobs", flush=True)
    try:
        head, answers, below = write(count, random.Random(seed))
        judge(*rt("check", folder=FOLDER / "crates" / "held"), head)
        shutil.rmtree(FOLDER)  # `rt ci` wants no crate but those of crates.txt
    except Trouble as trouble:
        stop(2, f"cannot compare: {trouble}", [])
    tally = ", ".join(f"{a}: {answers.count(a)}" for a in sorted(set(answers)))
    print(f"the definitions agree with the reference on {count} jobs and {len(answers)} plans (answers {tally}); of {2 * count} plans by "
          f"number and by weight {below} have a least C below C")


main(sys.argv[1:])
