#!/usr/bin/env python3
"""Tries the planted faults that the gate leaves out: crates/NAME/more-faults/*.edit.

    tools/faults.py [--alone] [--at-once N] [CRATE..]      without a name: every crate that has some
    tools/faults.py --gate [--at-once N]                   those of tools/faults.txt, after `rt ci`

With --gate the script tries the listed faults over the libraries that the gate built, in a few minutes. `rt` would
prove all crates below anew there, so the script calls the prover, `rattle check`, for the listed functions alone. The
prover also proves what these call in their crate, once for all checks of the crate. The script prints a line for each
fault, with the goals that stay open, and counts the faults in the last line.

A fault counts as rejected only if a goal of its function stays open, or if an answer in the function's proof files is
wrong. An error of the compiler, a name that no longer exists and an unproved callee do not count. Nor does a function
that the prover does not cover.

The rest of this text is about the other faults. The prover has to reject each. It proves a function against its own
contract and the contracts of what it calls, so faults in different functions are independent. The script therefore
plants as many as possible at once, in a copy of the repository. One check of these functions then shows which are
rejected. That counts if the crate is proved without any fault. The others are tried again without those: if a check
rejects none, by halves, and at last one by one. A fault in a constant has a check of its own, of all functions.
`rt must-fail` tries each fault that no check rejects, and with --alone it tries all of them.

The copy is removed at the end. `rt` reuses there what checks on this machine kept, so what was checked
before is not proved again. It costs least in the checkout in which the crates were checked: there each
further check of a crate begins with what was kept before any fault. --at-once N tries N crates side by
side (1), each in a copy of its own.

The script prints the commit, a line for each crate with its processor time, and a line for each fault that
no check rejects. Usually such a fault removes a name that a proof file cites, which shows little about a
contract. The last line has the total processor time. The status is 0 if all were rejected.
"""

import argparse
import collections
import concurrent.futures
import glob
import os
import queue
import re
import resource
import shutil
import subprocess
import sys
import tempfile
import threading

import common

TOP = common.TOP

Fault = collections.namedtuple("Fault", "name path texts functions")

# A fault of tools/faults.txt, and the path of the function that the prover must reject.
Listed = collections.namedtuple("Listed", "fault function")

# The processor time of the commands that a thread ran for its crate, in seconds.
SPENT = threading.local()

# Messages of a check about a name in a proof file that no longer exists.
MISSING = r"has no field|is not in scope|has no `|was not admitted"

# The message of a check about a function with goals that stay open.
OPEN_GOALS = r"`search` did not prove (.*)"


def main():
    parser = argparse.ArgumentParser(usage="tools/faults.py [--gate] [--alone] [--at-once N] [CRATE..]")
    parser.add_argument("--gate", action="store_true")
    parser.add_argument("--alone", action="store_true")
    parser.add_argument("--at-once", type=int, default=1, metavar="N")
    parser.add_argument("crates", nargs="*", metavar="CRATE")
    options = parser.parse_args()
    print(f"commit {commit()}", flush=True)
    if options.gate:
        return tried_after_gate(options.at_once)
    left = queue.SimpleQueue()
    for crate in options.crates or with_faults():
        left.put(crate)
    totals = collections.Counter()
    with concurrent.futures.ThreadPoolExecutor(options.at_once) as workers:
        for done in [workers.submit(tried_crates, left, options.alone) for _ in range(options.at_once)]:
            totals.update(done.result())
    print(f"{totals['tried']} faults, {totals['rejected']} rejected, {processor_minutes():.1f} processor minutes")
    return 0 if totals["tried"] == totals["rejected"] else 1


def processor_minutes():
    """Returns the processor time of all commands that this script ran."""
    used = resource.getrusage(resource.RUSAGE_CHILDREN)
    return (used.ru_utime + used.ru_stime) / 60


def tried_after_gate(at_once):
    """Tries the listed faults, and prints a line for each and their counts. Returns the exit status."""
    listed = listed_faults()
    need_libraries(listed)
    with concurrent.futures.ThreadPoolExecutor(at_once) as workers:
        tries = [workers.submit(tried_over_libraries, crate, listed[crate]) for crate in listed]
        rejected = sum(done.result() for done in tries)
    total = sum(map(len, listed.values()))
    print(f"{processor_minutes():.1f} processor minutes")
    print(f"{rejected} passed, {total - rejected} failed")
    return 0 if rejected == total else 1


def listed_faults():
    """Returns the faults of tools/faults.txt by crate."""
    listed = collections.defaultdict(list)
    with open(os.path.join(TOP, "tools", "faults.txt"), encoding="utf-8") as lines:
        for number, line in enumerate(lines, 1):
            words = line.partition("#")[0].split()
            if not words:
                continue
            if len(words) != 3:
                sys.exit(f"tools/faults.txt:{number}: a line names a crate, a fault and a function")
            crate, name, function = words
            folder = os.path.join(TOP, "crates", crate)
            path = os.path.join(folder, "more-faults", f"{name}.edit")
            if not os.path.exists(path):
                sys.exit(f"tools/faults.txt:{number}: there is no {os.path.relpath(path, TOP)}")
            listed[crate].append(Listed(read_fault(folder, path), function))
    return listed


def need_libraries(crates):
    """Ends the script if libraries below these crates are missing."""
    missing = [it for it in below(crates) if not os.path.exists(library(it))]
    if missing:
        names = ", ".join(missing)
        sys.exit(f"tools/faults.py --gate: run `rt ci` first, which leaves libraries in crates/*/out. Missing: {names}")


def below(crates):
    """Returns the repository's crates that these crates use, in the order of crates.txt."""
    lines = common.crate_lines()
    used = set()
    left = list(crates)
    while left:
        names = [it for it in lines[left.pop()].partition(":")[2].split() if it in lines and it not in used]
        used.update(names)
        left += names
    return [it for it in lines if it in used]


def library(crate):
    """Returns the path of the library of a crate that the gate leaves."""
    return os.path.join(TOP, "crates", crate, "out", "rlib", f"{crate}.rlib")


def tried_over_libraries(crate, listed):
    """Tries listed faults of a crate, as many together as there are different functions. Returns how many the prover
    rejects."""
    rejected, left = 0, listed
    with tempfile.TemporaryDirectory() as copy:
        folder = os.path.join(copy, crate)
        shutil.copytree(os.path.join(TOP, "crates", crate), folder, ignore=shutil.ignore_patterns("out"))
        os.makedirs(os.path.join(folder, "out", "kept"))
        while left:
            together, texts = in_different_functions(folder, left)
            left = [it for it in left if it not in together]
            only = [word for it in together for word in ("--only", it.function)]
            SPENT.seconds = 0
            told = told_with(folder, texts, [*prover_words(crate), *only])
            seconds = f"{SPENT.seconds:.0f} processor seconds"
            print(f"{crate}: {len(together)} of {len(listed)} in one check, {seconds}", flush=True)
            for it in together:
                place = it.function.replace("::", "/")
                reasons = reasons_against(told, re.escape(f"{crate}::{it.function}"), rf"\./proofs/{place}/\w+")
                verdict = "rejected" if reasons else "NOT REJECTED"
                print(f"{crate}/{it.fault.name}: {verdict}, {'; '.join([it.function, *reasons])}", flush=True)
                if not reasons:
                    print(told[-2000:], flush=True)
                rejected += bool(reasons)
    return rejected


def in_different_functions(folder, listed):
    """Returns listed faults of different functions, which can be planted together, and the files with them."""
    taken, texts = [], {}
    for it in listed:
        if it.function not in [other.function for other in taken]:
            changed = with_fault(folder, it.fault, texts)
            if changed:
                taken.append(it)
                texts.update(changed)
    return taken, texts


def prover_words(crate):
    """Returns the command that checks a crate, in its directory, over the libraries that the gate built."""
    page = subprocess.run(["rt", "doc"], stdout=subprocess.PIPE, text=True, check=True).stdout.strip()
    kit = os.path.dirname(page)
    own = {name: library(name) for name in below([crate])}
    words = [os.path.join(kit, "bin", "rattle"), "check", "--crate-name", crate, "src/lib.rt", "--jobs", "1"]
    for name in ["std", *common.crate_lines()[crate].partition(":")[2].split()]:
        words += ["--extern", f"{name}={own.get(name) or os.path.join(kit, 'rlibs', f'{name}.rlib')}"]
    for folder in [os.path.join(kit, "rlibs"), *map(os.path.dirname, own.values())]:
        words += ["-L", f"dependency={folder}"]
    words += ["--antt-project", os.path.join(kit, "rattle", "logic", "antt-project.json")]
    return [*words, "--logic-built", os.path.join(kit, "logic_built"), "--incremental", os.path.join("out", "kept")]


def commit():
    """Returns the commit of this checkout, and whether files differ from it."""
    said = subprocess.run(
        ["git", "describe", "--always", "--dirty", "--exclude=*"], cwd=TOP, stdout=subprocess.PIPE, text=True
    )
    return said.stdout.strip() or "unknown"


def tried_crates(left, alone):
    """Tries the faults of the crates in the queue, in a copy of the repository."""
    totals = collections.Counter()
    with tempfile.TemporaryDirectory() as copy:
        copied = subprocess.run(
            f"tar -cf - --exclude=.git --exclude=out . | tar -xf - -C {copy} && git init -q {copy}", cwd=TOP, shell=True
        )
        copied.check_returncode()
        for folder in glob.glob(os.path.join(copy, "crates", "*", "must-fail")):
            shutil.rmtree(folder)
        while True:
            try:
                crate = left.get_nowait()
            except queue.Empty:
                return totals
            totals.update(tried_crate(copy, crate, alone))


def with_faults():
    """Returns the crates that have faults, in the order of crates.txt: lower ones first."""
    crates = common.crate_lines()
    return [it for it in crates if os.path.isdir(os.path.join(TOP, "crates", it, "more-faults"))]


def tried_crate(copy, crate, alone):
    folder = os.path.join(copy, "crates", crate)
    faults = [read_fault(folder, path) for path in sorted(glob.glob(os.path.join(folder, "more-faults", "*.edit")))]
    SPENT.seconds = 0
    rejected, checks = ([], 0) if alone else rejected_by_checks(crate, folder, faults)
    rest = [fault for fault in faults if fault not in rejected]
    lines = tried_alone(copy, crate, rest) if rest else {}
    by_itself = [fault for fault in rest if ": refused" in lines.get(fault.name, "")]
    print(
        f"{crate}: {len(faults)} faults, {len(rejected)} rejected in {checks} checks, "
        f"{len(by_itself)} of {len(rest)} by itself, {SPENT.seconds / 60:.1f} processor minutes",
        flush=True,
    )
    for fault in rest:
        print(f"    {fault.name}{lines.get(fault.name, ': no verdict')}", flush=True)
    return {"tried": len(faults), "rejected": len(rejected) + len(by_itself)}


def read_fault(folder, path):
    """Returns a fault: the texts that it changes in files, and the functions that it changes there."""
    file, pairs = None, []
    with open(path, encoding="utf-8") as edit:
        for line in edit.read().split("\n"):
            word, _, text = line.partition(":")
            text = text[1:]
            if word == "file":
                file = text
            elif word == "old":
                pairs.append((file, text))
            elif word == "new":
                pairs[-1] += (text,)
            elif line and not line.startswith("#"):
                sys.exit(f"{os.path.relpath(path, TOP)}: the line {line!r} has none of file:, old: and new:")
    changes, functions, texts = [], set(), {}
    for file, old, new in pairs:
        if file not in texts:
            with open(os.path.join(folder, file), encoding="utf-8") as source:
                texts[file] = source.read()
        if texts[file].count(old) != 1:
            sys.exit(f"{os.path.relpath(path, TOP)}: {old!r} does not appear exactly once in {file}")
        if old == new:
            sys.exit(f"{os.path.relpath(path, TOP)}: {old!r} is not changed")
        functions.add((file, *function_at(texts[file], texts[file].index(old))))
        texts[file] = texts[file].replace(old, new)
        changes.append((file, old, new))
    return Fault(os.path.basename(path)[:-5], path, changes, functions)


def function_at(text, place):
    """Returns the function at a place of a text, and the head of its `impl` or trait.

    After a function and before the next one, the place belongs to the function, except in a constant.
    """
    heads = list(re.finditer(r"^( *)(?:pub(?:\([a-z]+\))? )?(?:const )?fn (\w+)[<(]", text, re.MULTILINE))
    before = [head for head in heads if head.start() <= place]
    if not before:
        return "", ""
    after = text[text.find(f"\n{before[-1].group(1)}}}", before[-1].end()) : text.find("\n", place)]
    if re.search(r"^ *(?:pub(?:\([a-z]+\))? )?(?:const|static) (?!fn )", after, re.MULTILINE):
        return "", ""
    blocks = re.findall(r"^((?:pub )?(?:impl|trait)\b[^{;]*)\{", text[: before[-1].start()], re.MULTILINE)
    return before[-1].group(2), " ".join(blocks[-1].split()) if before[-1].group(1) and blocks else ""


def stands_in_functions(fault):
    return all(name for _, name, _ in fault.functions)


def compatible(folder, faults):
    """Returns faults that can be planted together, and the files with them.

    These are as many as possible in different functions that change different texts. A first fault in a
    constant stays alone.
    """
    taken, functions, texts = [], set(), {}
    for fault in faults:
        changed = with_fault(folder, fault, texts)
        if changed and (not taken or stands_in_functions(fault) and not fault.functions & functions):
            taken.append(fault)
            functions |= fault.functions
            texts.update(changed)
            if not stands_in_functions(fault):
                break
    return taken, texts


def with_fault(folder, fault, texts):
    """Returns the files that a fault changes, on top of earlier changes. If its old text is gone, returns
    nothing."""
    changed = {}
    for file, old, new in fault.texts:
        text = changed.get(file) or texts.get(file) or read(os.path.join(folder, file))
        if text.count(old) != 1:
            return {}
        changed[file] = text.replace(old, new)
    return changed


def read(path):
    with open(path, encoding="utf-8") as file:
        return file.read()


def check_with(folder, texts, only=()):
    """Checks the crate, or these functions, with these texts instead of its files. Returns the output."""
    begin_anew(folder)
    words = [word for function in only for word in ("--only", function)]
    # Over kept work, each of several jobs would read all of it again, for a few functions.
    return told_with(folder, texts, ["rt", "check", "--jobs", "1", *words])


def told_with(folder, texts, words):
    """Runs a command in a crate's directory with these texts instead of its files. Returns the output."""
    whole = {file: read(os.path.join(folder, file)) for file in texts}
    write_all(folder, texts)
    printed = printed_by(words, folder)
    write_all(folder, whole)
    return printed


def write_all(folder, texts):
    for file, text in texts.items():
        with open(os.path.join(folder, file), "w", encoding="utf-8") as source:
            source.write(text)


def printed_by(words, folder):
    """Runs a command in this directory, and returns its output."""
    with subprocess.Popen(
        words, cwd=folder, stdout=subprocess.PIPE, stderr=subprocess.STDOUT, text=True, errors="replace"
    ) as command:
        printed = command.stdout.read()
        _, status, used = os.wait4(command.pid, 0)
        command.returncode = os.waitstatus_to_exitcode(status)
    SPENT.seconds = getattr(SPENT, "seconds", 0) + used.ru_utime + used.ru_stime
    return printed


def begin_anew(folder):
    """Makes the next check of this crate begin with what checks of this checkout kept, if they kept anything.

    Otherwise it would begin with what the check of other faults left, and prove each of their functions
    again.
    """
    if os.path.isdir(os.path.join(TOP, "crates", os.path.basename(folder), "out", "incremental")):
        shutil.rmtree(os.path.join(folder, "out", "incremental"), ignore_errors=True)


def rejected_by_checks(crate, folder, faults):
    """Returns the faults that a check rejects, and the number of checks.

    If the crate is not proved without any fault, none counts. A check may fail at some faults before it
    comes to the others. These are tried again without those that it rejects, or fewer at once if it rejects
    none.
    """
    told = check_with(folder, {})
    if not re.search(r"^logic=proved ", told, re.MULTILINE):
        return [], 1
    functions = re.findall(rf"^fn {crate}::(\S+): ", told, re.MULTILINE)
    rejected, checks = [], 1
    left, most = faults, len(faults)
    while left:
        together, texts = compatible(folder, left[:most])
        only = names_among(functions, folder, together)
        told = check_with(folder, texts, only)
        checks += 1
        found = [fault for fault in together if verdict_of(crate, folder, fault, told)]
        gone = found
        if len(together) == 1 and not found:
            if only:
                # The check may reject a caller instead of the function.
                told = check_with(folder, texts)
                checks += 1
            found, gone = (together if is_rejected(told) else []), together
        rejected += found
        left = [fault for fault in left if fault not in gone]
        most = len(left) if found else max(len(together) // 2, 1)
    return rejected, checks


def names_among(functions, folder, faults):
    """Returns those of these names that belong to functions of the faults, or none if one is not found."""
    found = []
    for fault in faults:
        for name in names_of(folder, fault):
            same = [it for it in functions if re.fullmatch(name.replace("/", "::"), it)]
            if not same:
                return []
            found += same
    return found


def names_of(folder, fault):
    """Yields patterns for the names of a fault's functions, as the folders of their proofs have them."""
    for file, function, block in fault.functions:
        place = place_of(folder, file, block)
        yield f"{place}/{function}" if place else function


def verdict_of(crate, folder, fault, told):
    """Tells whether the check rejects a function of the fault, for another reason than a missing name."""
    return any(
        is_rejected(told, rf"{crate}::{name.replace('/', '::')}", rf"\./proofs/{name}/\w+")
        for name in names_of(folder, fault)
    )


def is_rejected(told, function=r"\S+", file=r"\S+"):
    """Tells whether the check rejects such a function."""
    return bool(reasons_against(told, function, file))


def reasons_against(told, function, file):
    """Returns why a check rejects such a function, or an error in such a proof file.

    A reason is the list of the goals that stay open, or an error that is not about a missing name. There is none if a
    function has no proof for another reason: the prover does not cover it, or what it calls is not proved.
    """
    # The lines that go on with a message are indented.
    errors = re.findall(rf"^{file}\.antt:\S* (error: .*(?:\n .*)*)", told, re.MULTILINE)
    reasons = [error.partition("\n")[0][:200] for error in errors if not re.search(MISSING, error)]
    for line in re.findall(rf"^fn {function}: no proof: (.*)$", told, re.MULTILINE):
        found = [re.match(OPEN_GOALS, reason) for reason in line.split("; ")]
        reasons += [match[1] for match in found if match]
    return reasons


def place_of(folder, file, block):
    """Returns a pattern for the module and the type by which `rt` names functions.

    They are the functions of a file, or of an `impl` or a trait there. A method is under the module of its
    type, wherever its `impl` is.
    """
    module = re.sub(r"^src/|\.rt$", "", file)
    module = "" if module in ("lib", "main") else module
    if not block:
        return module
    words = re.findall(r"\w+", without_generics(block))
    words = words[words.index("impl" if "impl" in words else "trait") + 1 :]
    if "for" not in words:
        modules, kind = {module, module_of(folder, words[0])} - {None}, words[0]
    else:
        trait, kind = words[words.index("for") - 1], words[words.index("for") + 1]
        argument = re.search(rf"\b{trait}<\W*(\w+)", block)
        # A parameter of the `impl` is one letter.
        modules, kind = {module}, "Any" if len(kind) == 1 else kind[0].upper() + kind[1:]
        kind += trait + (f"(?:{argument.group(1)})?" if argument else "")
    return f"(?:{'|'.join(sorted(modules))})/{kind}(?:\\+[^/:]*)?"


def without_generics(block):
    """Returns the head of an `impl` or a trait without angle brackets, bounds and lifetimes."""
    depth, kept = 0, ""
    for letter in block.replace("->", ""):
        depth += (letter == "<") - (letter == ">")
        kept += letter if not depth and letter != ">" else " "
    return re.sub(r"'\w+|\bwhere\b.*|(?<=\w):(?!:).*", "", kept)


def module_of(folder, kind):
    """Returns the module that declares a type or trait, if the crate does."""
    for path in glob.glob(os.path.join(folder, "src", "**", "*.rt"), recursive=True):
        with open(path, encoding="utf-8") as source:
            if re.search(rf"^(?:pub(?:\([a-z]+\))? )?(?:struct|enum|trait) {kind}\b", source.read(), re.MULTILINE):
                return os.path.relpath(path, os.path.join(folder, "src"))[:-3]
    return None


def tried_alone(copy, crate, faults):
    """Returns the lines of `rt must-fail` for these faults, by name."""
    place = os.path.join(copy, "crates", crate, "must-fail")
    os.mkdir(place)
    for fault in faults:
        shutil.copy(fault.path, place)
    printed = printed_by(["rt", "must-fail", crate], copy)
    shutil.rmtree(place)
    lines = {}
    for line in printed.split("\n"):
        found = re.search(rf"must-fail {crate}/([\w-]+)\.edit(: .*)", line)
        if found:
            lines[found.group(1)] = found.group(2)
    return lines


if __name__ == "__main__":
    sys.exit(main())
