"""Other programs that judge proofs, and the words of the scripts that call them."""
import os
import re
import shutil
import subprocess
import sys
import tempfile

import calling
import formulas
from running import Run, version

# What cadical's proofs are of.
SUITE = [
    ("adders", 512), ("adders", 1024), ("comparators", 4000), ("bmc", 2000), ("bands", 4000), ("trees", 20000), ("multipliers", 7),
    ("pigeons", 8), ("counters", 40), ("intervals", 2000), ("random", 200), ("pigeons_seq", 8),
]
PACKAGES = {
    "acl2": "apt-get install acl2 acl2-books (2.4 GB)",
    "cadical": "apt-get install cadical",
    "drat-trim": "apt-get source cadical, then --drat-trim cadical-rel-1.5.3/test/cnf/drat-trim.c",
}


def found(name, given, folder, script):
    """The program as an executable: what was given, or what stands on the PATH. A source in C is compiled."""
    path = given or shutil.which(name)
    if not path or not os.path.exists(path):
        sys.exit(f"{script}: {name} isn't there: {PACKAGES[name]}")
    path = os.path.abspath(path)
    if path.endswith(".c"):
        with open(path) as it:
            print(f"{name}: " + next((line.strip() for line in it if line.startswith("Last edit")), "tells no version"))
        program = os.path.join(folder, name)
        subprocess.run(["cc", "-O2", "-w", "-o", program, path], check=True)
        return program
    return path


def find(given, folder, script):
    """Finds cadical and drat-trim."""
    given.cadical, given.drat_trim = found("cadical", given.cadical, folder, script), found("drat-trim", given.drat_trim, folder, script)


def is_refuted(given):
    """Whether cadical refutes formula.cnf; its proof is then proof.drat."""
    return Run([given.cadical, "-q", "--no-binary", "formula.cnf", "proof.drat"], given.seconds).code == 20


def of_refutations(page, script, row):
    """What `row` says of cadical's refutations: it takes the script's words, the name of the formula and the number of its clauses, where
    formula.cnf and proof.drat are."""
    given, rows = words(page, cadical={"type": os.path.abspath}), []
    with tempfile.TemporaryDirectory() as folder:
        os.chdir(folder)
        find(given, folder, script)
        print(f"cadical {version(given.cadical)}")
        for family, size in given.rows or SUITE:
            variables, clauses = formulas.made(family, size)
            formulas.write("formula.cnf", variables, clauses)
            if is_refuted(given):
                rows.append(row(given, f"{family} {size}", len(clauses)))
            else:
                print(f"{family + ' ' + str(size):>18} {len(clauses):8,} no refutation", flush=True)
        os.chdir("/")
    return rows


def damage(program, proof, damaged, change, seconds, options=()):
    """Writes the proof with one line changed, from its middle on, such that the program refuses that very line; returns whether there is
    one. `change` makes other words of a line's, or none of a line that is to stay."""
    with open(proof) as it:
        lines = it.readlines()
    for at in range(len(lines) // 2, len(lines)):
        words = change(lines[at].split())
        if not words:
            continue
        with open(damaged, "w") as it:
            it.writelines([*lines[:at], " ".join(words) + "\n", *lines[at + 1 :]])
        run = Run([program, "check", "formula.cnf", damaged, *options], seconds)
        if re.match(rf"c line {at + 1} \w+\ns NOT VERIFIED\n", run.output):
            return True
    return False


def words(page, **more):
    """The words of a script that calls some of these programs on formulas of FAMILY SIZE .., with its further options."""
    call = calling.Calling(page)
    call.add_argument("--drat-trim", type=os.path.abspath)
    call.add_argument("--seconds", type=int, default=600)
    for option, kind in more.items():
        call.add_argument("--" + option.replace("_", "-"), **kind)
    call.add_argument("rows", nargs="*")
    given = call.words()
    given.rows = calling.rows_of(given.rows, formulas.FAMILIES, int)
    if given.rows is None:
        sys.exit(page)
    return given
