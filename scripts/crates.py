"""What the scripts share: the crates that crates.txt lists, and copies of them."""

import os
import shutil

TOP = os.path.dirname(os.path.dirname(os.path.realpath(__file__)))
# What stands in a crate's folder beside what a proof and a run of it read.
OUT, EDITS, MORE_EDITS = "out", "must-fail", "more-edits"


def rows(top=TOP):
    """Returns the line of each crate in crates.txt, by the crate's name."""
    with open(os.path.join(top, "crates.txt"), encoding="utf-8") as file:
        lines = [line.partition("#")[0].strip() for line in file]
    return {line.partition(":")[0].split()[0]: line for line in lines if line}


def with_those_below(name):
    """Returns the crate with this name and all crates of the repository that it stands on, lowest first."""
    listed, found = rows(), []

    def visit(it):
        for dep in listed[it].partition(":")[2].split():
            if dep in listed and dep not in found:
                visit(dep)
        found.append(it)

    visit(name)
    return found


def copy(names, to, without):
    """Copies these crates, their lines of crates.txt and the file HANDLES to a folder, without these folders of each crate."""
    listed = rows()
    for name in names:
        os.makedirs(os.path.join(to, "crates", name))
        for entry in os.scandir(os.path.join(TOP, "crates", name)):
            into = os.path.join(to, "crates", name, entry.name)
            if entry.is_dir() and entry.name not in without:
                shutil.copytree(entry.path, into)
            elif entry.is_file():
                shutil.copyfile(entry.path, into)
    with open(os.path.join(to, "crates.txt"), "w", encoding="utf-8") as file:
        file.writelines(f"{listed[name]}\n" for name in names)
    handles = os.path.join(TOP, "HANDLES")
    if os.path.isfile(handles):
        shutil.copyfile(handles, os.path.join(to, "HANDLES"))
