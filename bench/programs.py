"""The programs that are measured: the proved ones in Rattle, and the plain ones that stand beside them.

A proved program is built in a workspace of its own. The gate refuses a .rt file, a link or a second crates.txt anywhere else in the repository: so the
sources end in .rattle here, and the workspace is away again once the program is built. What was proved stays in out/proved for the next time, with the
program. Only what is proved is built with optimisation."""
import glob
import os
import shutil
import subprocess
import sys

HERE = os.path.dirname(os.path.abspath(__file__))
OUT, TOP, WORKSPACE = f"{HERE}/out", os.path.dirname(HERE), f"{HERE}/out/rattle"
# of each: its words once it is built, which warms it up; and the libraries that it names, the last of which is built first
PROGRAMS = {
    "figures": (["--", "folds"], "lv_geometry lv_bodies lv_store lv_edits lv_summary lv_refresh lv_reduce lv_live lv_tree lv_standing"),
    "window": (["--", "unasked"], "lv_bodies lv_tree lv_series"),
    "board": ([], "lv_geometry lv_bodies lv_edits lv_reduce lv_machine lv_board"),
    "soak": ([], "lv_geometry lv_bodies lv_edits lv_reduce lv_machine lv_board"),
}


def linked(source, target):
    """A file by another name where the disk allows it, or its copy. A library is only read there, since it has been built."""
    try:
        os.link(source, target)
    except OSError:
        shutil.copy2(source, target)


def with_below(names, known):
    """Some libraries with those below them, by the lines of crates.txt."""
    below = {line.split(":")[0].split()[0]: line.split(":")[1].split() for line in known if ":" in line}
    found = set(names)
    while more := {it for name in found for it in below[name] if it in below} - found:
        found |= more
    return found


def lay_out(program):
    """Lays a program out as a crate. What is shared lies in figures/: a program gets what it names."""
    _, libraries = PROGRAMS[program]
    crate, known = f"{WORKSPACE}/crates/{program}", open(f"{TOP}/crates.txt").read().splitlines()
    names = with_below(libraries.split(), known)
    put_away(program)
    os.makedirs(f"{crate}/src")
    shutil.copy(f"{TOP}/HANDLES", WORKSPACE)
    with open(f"{WORKSPACE}/crates.txt", "w") as crates:
        crates.writelines(f"{line}\n" for line in [f"{program}: anyhow {libraries}", *(line for line in known if line.split(":")[0] in names)])
    for folder in (f"crates/{name}/{part}" for name in names for part in ("src", "specs", "proofs", "out/rlib")):
        if os.path.isdir(f"{TOP}/{folder}"):
            shutil.copytree(f"{TOP}/{folder}", f"{WORKSPACE}/{folder}", copy_function=linked)
    named = open(f"{HERE}/{program}/main.rattle").read()
    for source in [f"{HERE}/figures/{it}.rattle" for it in ("answers", "numbers", "timing")] + glob.glob(f"{HERE}/{program}/*.rattle"):
        name = os.path.basename(source).removesuffix(".rattle")
        if source == f"{HERE}/{program}/main.rattle" or f"\nmod {name};" in named:
            shutil.copy(source, f"{crate}/src/{name}.rt")
    for proof in glob.glob(f"{HERE}/{program}/proofs/**/*.rattle", recursive=True):
        target = f"{crate}/{os.path.relpath(proof, f'{HERE}/{program}').removesuffix('.rattle')}.antt"
        os.makedirs(os.path.dirname(target), exist_ok=True)
        shutil.copy(proof, target)
    if os.path.isdir(f"{OUT}/proved/{program}"):
        shutil.move(f"{OUT}/proved/{program}", f"{crate}/out")
    return crate


def put_away(program):
    """Keeps what was proved, and takes the workspace away."""
    if os.path.isdir(f"{WORKSPACE}/crates/{program}/out"):
        shutil.rmtree(f"{OUT}/proved/{program}", ignore_errors=True)
        os.makedirs(f"{OUT}/proved", exist_ok=True)
        shutil.move(f"{WORKSPACE}/crates/{program}/out", f"{OUT}/proved/{program}")
    shutil.rmtree(WORKSPACE, ignore_errors=True)


def ran(words, folder):
    """Whether a command of the kit succeeded, and what it said."""
    told = subprocess.run(words, cwd=folder, stdin=subprocess.DEVNULL, stdout=subprocess.PIPE, stderr=subprocess.STDOUT, text=True)
    return told.returncode == 0, told.stdout


def prove(program):
    """Proves and builds a program."""
    words, libraries = PROGRAMS[program]
    is_built, said = ran(["rt", "lib"], f"{TOP}/crates/{libraries.split()[-1]}")
    print(f"proves and builds bench/{program}: some 10 min at first, less where little changed", file=sys.stderr, flush=True)
    try:
        is_built, said = ran(["rt", "run", *words], lay_out(program)) if is_built else (False, said)
    finally:
        put_away(program)
    if not is_built:
        sys.exit(said)


def fits(program):
    """Sees that a program still fits the crates: it is compiled and started, without its proofs."""
    try:
        _, said = ran(["rt", "try", "--seconds", "1", "--steps", "1"], lay_out(program))
    finally:
        put_away(program)
    # where it can't be compiled, nothing ran
    if not any(line.startswith("run=") and not line.startswith("run=none") for line in said.splitlines()):
        sys.exit(f"{said}bench/{program} doesn't fit the crates")


def proved(program):
    """The file of a program that was proved, or of the one that the environment has under its name."""
    return os.environ.get(program.upper(), f"{OUT}/proved/{program}/{program}")


def plain(name, out=OUT):
    """Compiles a plain program for the same processors, if it isn't compiled, and gives its file."""
    made, sources = f"{out}/{name}", [f"{HERE}/{name}.rs", *glob.glob(f"{HERE}/peers/*.rs")]
    if not os.path.exists(made) or any(os.path.getmtime(it) > os.path.getmtime(made) for it in sources):
        os.makedirs(out, exist_ok=True)
        subprocess.run(["rustc", "--edition", "2021", "-O", "-C", "target-cpu=x86-64-v2", "-o", made, sources[0]], check=True)
    return made


def in_c(source, name, *libraries, cc=os.environ.get("CC", "cc"), standard="gnu11"):
    """Compiles a program of C, or of C++ by another compiler, and gives its file."""
    os.makedirs(OUT, exist_ok=True)
    subprocess.run([cc, f"-std={standard}", "-O2", "-Wall", "-Wextra", "-pthread", f"-I{TOP}/include", f"{HERE}/{source}", *libraries, "-o", f"{OUT}/{name}"], check=True)
    return f"{OUT}/{name}"


def archive():
    """The library for C: that of LIVEVEC_LIB_DIR, else of build/; none if there is none."""
    path = os.path.realpath(os.environ.get("LIVEVEC_LIB_DIR", f"{TOP}/build")) + "/liblivevec.a"
    return path if os.path.exists(path) else None
