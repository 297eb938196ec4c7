#!/usr/bin/env python3
"""Prints what the gate costs, in seconds of processor time.

    tools/gate_times.py CRATE [EDIT..]
    tools/gate_times.py --functions CRATE
    tools/gate_times.py --gate [COMMAND..]

The first prints what a crate costs: its proof, its tests' proof and run, and each of its must-fail edits over the work
that those before it kept, at one job, as `rt ci` takes them. With names of edits it leaves out the proof and the tests,
and prints for each edit what the prover refuses.

With `--functions` it proves the crate from nothing, and prints each function's seconds, the dearest first: its code as
the logic has it, its goals, the rest (statements, ties, answers), and how many goals its text has, which is clauses
times ways out. Then come the lemma files. A function above 15 s, or with more than 12 goals and no answers, is one to
look at; docs/TESTING.md has the budget.

With `--gate` it runs a command (`rt ci`, if none is named), prints what the command prints, and what each crate took: its
proof, its tests, the proof that its edits begin with, its edits, and the builds of its program. It looks at the processes five
times a second, so up to a hundredth of the time is counted only in the last line. It ends with the command's status.

The first two work on a copy of the crate and the crates below it, with the work that was kept for these: check them before. A
crate of 60 functions takes some five minutes, and `rt` (the toolchain's command) has to be on the path.
"""
import os
import re
import resource
import shutil
import subprocess
import sys
import tempfile
import threading
import time
from collections import Counter, defaultdict
from pathlib import Path

from files import lines_of_crates

ROOT = Path(__file__).resolve().parent.parent

def processor_seconds():
    """The seconds of processor time of the commands that have ended."""
    used = resource.getrusage(resource.RUSAGE_CHILDREN)
    return used.ru_utime + used.ru_stime

def timed(folder, *words):
    """Runs a command in a folder: the seconds that it took, and what it printed."""
    before = processor_seconds()
    ran = subprocess.run(words, cwd=folder, stdout=subprocess.PIPE, stderr=subprocess.STDOUT, text=True)
    return processor_seconds() - before, ran.stdout

def last_line(printed):
    """What a check says at its end."""
    return ([line for line in printed.splitlines() if line.startswith("logic=")] or ["no answer"])[-1]

def libraries(crate):
    """The libraries that a crate uses."""
    return lines_of_crates(ROOT)[crate].partition(":")[2].split()

def below(name):
    """The repository's crates that a crate depends on, lowest first."""
    known, found = lines_of_crates(ROOT), []
    def visit(crate):
        for other in libraries(crate):
            if other in known and other not in found:
                visit(other)
                found.append(other)
    visit(name)
    return found

# ## A crate, and its edits

def report(label, seconds, rest=""):
    """Prints a line with the seconds that something took."""
    print(f"{label:44}{seconds:8.1f} s  {rest}".rstrip(), flush=True)

def edited(crate, edit):
    """The file that an edit changes, its text, and its text with the edit."""
    said = edit.read_text()
    path = crate / re.search(r"^file: (.*)$", said, re.M)[1]
    text = changed = path.read_text()
    for old, new in re.findall(r"^old: (.*)\nnew: ?(.*)$", said, re.M):
        if changed.count(old) != 1:
            sys.exit(f"{edit.name}: its text occurs {changed.count(old)} times in {path}")
        changed = changed.replace(old, new)
    return path, text, changed

def time_edit(crate, edit, tells):
    """The seconds that it takes to refuse an edit. If requested, this also prints the clauses that weren't proved."""
    path, text, changed = edited(crate, edit)
    path.write_text(changed)
    seconds, printed = timed(crate, "rt", "check", "--jobs", "1")
    path.write_text(text)
    report(edit.stem, seconds, "" if "logic=not-proved" in last_line(printed) else "NOT REFUSED")
    refused = [line for line in printed.splitlines() if re.match(r"(note: )?\S+:\d+:\d+: .*(: error|not proved)", line)]
    for line in refused or ["nothing refused"] if tells else []:
        print("    " + line[:220])
    return seconds

def time_crate(name, crate, chosen):
    """Times a crate's proof, tests and edits, or only the named edits."""
    if not chosen:
        shutil.rmtree(crate / "out", ignore_errors=True)
    proof, printed = timed(crate, "rt", "check", "--jobs", "1")
    if not chosen:
        report("proof", proof, f"{(re.findall(r'functions=([0-9]+)', last_line(printed)) or '?')[0]} functions")
    if not last_line(printed).startswith("logic=proved"):
        sys.exit(f"{name} isn't proved: {last_line(printed)}")
    tests = 0.0
    if not chosen and any("#[test]" in file.read_text() for file in (crate / "src").rglob("*.rt")):
        tests, _ = timed(crate, "rt", "test")
        report("tests", tests)
    edits = [edit for edit in sorted((crate / "must-fail").glob("*.edit")) if not chosen or edit.stem in chosen]
    others = sum(time_edit(crate, edit, bool(chosen)) for edit in edits)
    unedited, _ = timed(crate, "rt", "check", "--jobs", "1")
    report("unedited, over kept work", unedited)
    if not chosen:
        # the gate's first edit proves the crate again
        report("in the gate", proof + tests + (proof if edits else 0.0) + others + unedited, f"{len(edits)} edits")

# ## A whole gate

def processes():
    """Each process: its number and its start, its parent's number, and the seconds that it took."""
    for folder in filter(str.isdigit, os.listdir("/proc")):
        try:
            fields = Path("/proc", folder, "stat").read_text().rpartition(")")[2].split()
        except OSError:
            continue
        yield int(folder), (int(fields[19]), int(fields[1]), (int(fields[11]) + int(fields[12])) / os.sysconf("SC_CLK_TCK"))

def task_of(number):
    """What a process of the gate is for: a crate, and which of its tasks."""
    try:
        words = Path("/proc", str(number), "cmdline").read_bytes().decode(errors="replace").split("\0")
        folder = os.readlink(f"/proc/{number}/cwd")
    except OSError:
        return None
    given = dict(zip(words, words[1:]))
    if "--crate-name" not in words:
        return None
    if "rt-edit" in folder:
        part = "seed" if given.get("--incremental", "").endswith("/seed") else "edits"
    else:
        part = "builds" if "--crate-checked" in words else "tests" if "--test" in words else "proof"
    return given["--crate-name"], part

def watch(root, stop, seconds, tasks):
    """Notes the seconds of each process that a process has started, until the event."""
    while not stop.wait(0.2):
        found, known, under = dict(processes()), set(), {root}
        while known != under:
            known = set(under)
            under |= {number for number, (_, parent, _) in found.items() if parent in known}
        for number in under & found.keys():
            start, _, seconds[number, found[number][0]] = found[number]
            # (the command line is read again until it is the checker's)
            if tasks.get((number, start)) is None:
                tasks[number, start] = task_of(number)

def time_gate(command):
    """Runs a command, and prints what each crate took in it."""
    seconds, tasks, stop, began = {}, {}, threading.Event(), time.time()
    with subprocess.Popen(command) as ran:
        watcher = threading.Thread(target=watch, args=(ran.pid, stop, seconds, tasks))
        watcher.start()
        status = ran.wait()
        stop.set()
        watcher.join()
    by_crate = defaultdict(Counter)
    for process, took in seconds.items():
        crate, part = tasks.get(process) or ("other", "builds")
        by_crate[crate][part] += took
    print()
    print_table(by_crate, ["proof", "tests", "seed", "edits", "builds"])
    print(f"in all {processor_seconds() / 60:.1f} minutes of processor, {(time.time() - began) / 60:.1f} by the clock")
    return status

def print_table(rows, columns):
    """Prints what each crate took, by its tasks, the dearest first, and the sums."""
    print(f"{'crate':20}" + "".join(f"{column:>9}" for column in [*columns, "all"]))
    dearest = sorted(rows.items(), key=lambda row: -row[1].total())
    for name, took in [*dearest, ("seen", sum(rows.values(), Counter()))]:
        print(f"{name:20}" + "".join(f"{took[column]:9.0f}" for column in columns) + f"{took.total():9.0f}")

# ## The functions of a crate

# the modules that are made of a function
PARTS = ("Answers Code Given Goals Invariants Kinds Layout Lts Met Mir Named Paired Proof Reads Statement Symbol TheLink TheLinks TheReach "
         "Tie View").split()

BEGINS = r"^\s*(?:pub(?:\([a-z]+\))? )?(?:const )?fn "

def words_of_check(crate, copy, kept):
    """The checker's command for a crate of the repository, over only the crates that were built below it."""
    kit = Path(subprocess.run(["rt", "doc"], stdout=subprocess.PIPE, text=True).stdout.strip()).parent
    rlibs = {name: copy / "crates" / name / "out/rlib" / f"{name}.rlib" for name in below(crate)}
    source = "src/main.rt" if (copy / "crates" / crate / "src/main.rt").is_file() else "src/lib.rt"
    words = ["rattle", "check", "--crate-name", crate, source, "--jobs", "1", "--progress", "--incremental", kept]
    for name in ["std", *libraries(crate)]:
        words += ["--extern", f"{name}={rlibs.get(name, kit / 'rlibs' / f'{name}.rlib')}"]
    for folder in [kit / "rlibs", *(rlib.parent for rlib in rlibs.values())]:
        words += ["-L", f"dependency={folder}"]
    return [*words, "--antt-project", str(kit / "rattle/logic/antt-project.json"), "--logic-built", str(kit / "logic_built"),
            "--links", f"{crate}="]

def goals_by_text(crate):
    """For each function, by its name alone: how many clauses it ensures and how many ways out it has, counted in its text."""
    found = defaultdict(lambda: (0, 1))
    for file in sorted((crate / "src").rglob("*.rt")):
        text = re.sub(r"//.*", "", file.read_text())
        for name, body in re.findall(rf"{BEGINS}(\w+).*\n((?:(?!{BEGINS}).*\n)*)", text, re.M):
            lines = [line.strip() for line in body.splitlines()]
            code = "\n".join(line for line in lines if not line.startswith(("requires", "ensures", "invariant")))
            ways = 1 + len(re.findall(r"\breturn\b|\?[;)., ]|\?$", code, re.M))
            found[name] = max(found[name], (sum(line.startswith("ensures") for line in lines), ways))
    return found

def by_function(kept, scale):
    """The seconds of each function's modules, by the times at which these were kept: at one job a module's file is written as its check
    ends, and modules are checked one after the other."""
    files = sorted((file.stat().st_mtime, file.name.replace(".decls.", ".").removesuffix(".oantt")) for file in Path(kept).rglob("*.oantt"))
    found = defaultdict(Counter)
    for (before, _), (at, file) in zip([files[0], *files], files):
        names, part = file.partition("-proofs.")[2].split("."), ""
        while len(names) > 1 and names[-1] in PARTS:
            part = names.pop()
        column = {"Lts": "code", "Proof": "goals"}.get(part, "rest" if part else "files")
        found[".".join(names) if part else file][column] += (at - before) * scale
    return found

def time_functions(name, copy):
    """Proves a crate from nothing, and prints its functions' seconds."""
    crate, kept, columns = copy / "crates" / name, str(copy / "kept"), ["code", "goals", "rest", "files"]
    os.mkdir(kept)
    began = time.time()
    took, printed = timed(crate, *words_of_check(name, copy, kept))
    if not last_line(printed).startswith("logic=proved"):
        sys.exit(f"{name} isn't proved:\n{printed[-3000:]}")
    functions, goals = by_function(kept, took / (time.time() - began)), goals_by_text(crate)
    print(f"{'seconds':>8}" + "".join(f"{column:>8}" for column in columns) + "  clauses x ways out")
    def row(seconds, parts, rest):
        print(f"{seconds:8.1f}" + "".join(f"{parts[column]:8.1f}" for column in columns) + f"  {rest}")
    for function, parts in sorted(functions.items(), key=lambda entry: -entry[1].total()):
        clauses, ways = goals[function.rpartition(".")[2]]
        if parts.total() >= 0.5:
            row(parts.total(), parts, function + (f"  {clauses} x {ways}" if clauses and not parts["files"] else ""))
    sums = sum(functions.values(), Counter())
    row(took, sums, f"all, {took - sums.total():.1f} before the first")

def main():
    """Times what the command line names."""
    if len(sys.argv) < 2:
        sys.exit(__doc__.strip())
    if sys.argv[1] == "--gate":
        sys.exit(time_gate(sys.argv[2:] or ["rt", "ci"]))
    functions = sys.argv[1] == "--functions"
    name, chosen = sys.argv[1 + functions], sys.argv[2 + functions:]
    with tempfile.TemporaryDirectory(prefix="gate-times-") as work:
        copy, lines = Path(work) / "copy", lines_of_crates(ROOT)
        for crate in [*below(name), name]:
            shutil.copytree(ROOT / "crates" / crate, copy / "crates" / crate)
        (copy / "crates.txt").write_text("".join(f"{lines[crate]}\n" for crate in [*below(name), name]))
        for crate in below(name):
            timed(copy / "crates" / crate, "rt", "lib")
        if functions:
            time_functions(name, copy)
        else:
            time_crate(name, copy / "crates" / name, chosen)

if __name__ == "__main__":
    main()
