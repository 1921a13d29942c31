"""The crates of the repository, and the words by which rt has the prover check one over the libraries that are built."""

from __future__ import annotations

import os
import shutil
from dataclasses import dataclass

TOP = os.path.dirname(os.path.dirname(os.path.realpath(__file__)))


@dataclass
class Crate:
    name: str
    deps: list[str]

    @property
    def folder(self) -> str:
        return f"{TOP}/crates/{self.name}"

    @property
    def rlib(self) -> str:
        return f"{self.folder}/out/rlib/{self.name}.rlib"


def read(path: str) -> str:
    with open(path, encoding="utf-8") as it:
        return it.read()


def kit() -> str:
    """The toolchain's folder: that of the command rt."""
    return os.path.dirname(os.path.dirname(os.path.realpath(shutil.which("rt"))))


def crates() -> dict[str, Crate]:
    """The crates of crates.txt, by their names."""
    found = {}
    for line in read(f"{TOP}/crates.txt").splitlines():
        front, _, deps = line.partition("#")[0].partition(":")
        if front.strip():
            name = front.split()[0]
            found[name] = Crate(name, deps.split())
    return found


def below(crate: Crate, known: dict[str, Crate]) -> list[Crate]:
    """The libraries of the repository that the crate stands on, lowest first."""
    found = []
    for name in crate.deps:
        if name in known:
            found += [it for it in [*below(known[name], known), known[name]] if it not in found]
    return found


def words_of(crate: Crate, known: dict[str, Crate], jobs: int = 1) -> list[str]:
    """The words by which rt has the prover check the crate."""
    root = "src/main.rt" if os.path.exists(f"{crate.folder}/src/main.rt") else "src/lib.rt"
    words = ["--crate-name", crate.name, root]
    for name in ["std", *[it for it in crate.deps if it not in known]]:
        words += ["--extern", f"{name}={kit()}/rlibs/{name}.rlib"]
    words += ["-L", f"dependency={kit()}/rlibs"]
    for name in crate.deps:
        if name in known:
            words += ["--extern", f"{name}={known[name].rlib}"]
    for it in below(crate, known):
        words += ["-L", f"dependency={os.path.dirname(it.rlib)}"]
    words += ["--antt-project", f"{kit()}/rattle/logic/antt-project.json", "--logic-built", f"{kit()}/logic_built"]
    return [*words, "--links", f"{crate.name}=", "--jobs", str(jobs)]
