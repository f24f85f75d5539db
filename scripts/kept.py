"""Checks of a crate over the libraries that `rt ci` kept on this machine, for the scripts beside it."""
import glob
import json
import os
import shutil
import sys

KIT = os.path.dirname(os.path.dirname(os.path.realpath(shutil.which("rt"))))
STORE = f"{os.path.dirname(KIT)}/rattle-kept"
ROOT = os.path.dirname(os.path.dirname(os.path.realpath(__file__)))


def libraries():
    """Returns what each crate of the repository stands on, by its name."""
    with open(f"{ROOT}/crates.txt", encoding="utf-8") as it:
        lines = [line.split("#")[0].partition(":") for line in it]
    return {name.strip(): below.split() for name, colon, below in lines if colon}


def taken(name, work):
    """Copies the newest library of the crate that was kept into the folder, and returns where it lies."""
    found = sorted(glob.glob(f"{STORE}/proof-{name}-*/made.json"), key=os.path.getmtime)
    if not found:
        return left(name, work)
    made = os.path.dirname(found[-1])
    with open(found[-1], encoding="utf-8") as it:
        files = [path for path, _ in json.load(it)["files"]]
    at = f"{work}/rlib/{name}.rlib"
    shutil.rmtree(at, ignore_errors=True)
    for number, path in enumerate(files):
        if path.startswith("rlib/"):
            to = f"{work}/{path}"
            os.makedirs(os.path.dirname(to), exist_ok=True)
            shutil.copyfile(f"{made}/{number}", to)
    return at


def left(name, work):
    """Copies the library of the crate that `rt ci` left in a checkout into the folder, and returns where it lies."""
    made = f"{os.environ.get('CHECK_OVER', ROOT)}/crates/{name}/out/rlib/{name}.rlib"
    if not os.path.isdir(made):
        sys.exit(f"{os.path.basename(sys.argv[0])}: no proof of {name} is kept: rt ci first")
    at = f"{work}/rlib/{name}.rlib"
    shutil.copytree(made, at, dirs_exist_ok=True)
    return at


def words_of(name, work):
    """Returns the words that check the crate over what was kept, which the folder gets a copy of."""
    below = libraries()
    wanted, todo = {}, list(below[name])
    while todo:
        it = todo.pop()
        if it in below and it not in wanted:
            wanted[it] = taken(it, work)
            todo += below[it]
    externs = ["--extern", f"std={KIT}/rlibs/std.rlib"]
    for it in below[name]:
        externs += ["--extern", f"{it}={wanted.get(it, f'{KIT}/rlibs/{it}.rlib')}"]
    source = "src/main.rt" if os.path.exists(f"{ROOT}/crates/{name}/src/main.rt") else "src/lib.rt"
    words = [f"{KIT}/bin/rattle", "check", "--crate-name", name, source, *externs]
    words += ["-L", f"dependency={KIT}/rlibs", "-L", f"dependency={work}/rlib"]
    return [*words, "--antt-project", f"{KIT}/rattle/logic/antt-project.json", "--logic-built", f"{KIT}/logic_built"]
