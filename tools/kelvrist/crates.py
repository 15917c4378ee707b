"""The crates that crates.txt lists, the functions in their source, and rt."""
import os
import re
import subprocess
from difflib import get_close_matches
from pathlib import Path

from kelvrist.inout import Trouble

TOP = Path(__file__).resolve().parent.parent.parent
FUNCTION = re.compile(r'(?:pub )?(?:extern "C" )?fn (\w+)')


def rt(*words, folder):
    """The status of rt with these words in a folder, and what it says, no line cut."""
    try:
        ran = subprocess.run(["rt", *words], cwd=folder, stdout=subprocess.PIPE, stderr=subprocess.STDOUT, text=True,
                             env={**os.environ, "RT_CUT": "0"})
    except FileNotFoundError:
        raise Trouble("rt is not on the path: install the Rattle kit and link its bin/rt")
    return ran.returncode, ran.stdout


def around(folder):
    """The repository that a folder is in, as rt finds it: the nearest folder above with a crates.txt."""
    for top in (folder, *folder.parents):
        if (top / "crates.txt").is_file():
            return top
    raise Trouble(f"no crates.txt in {folder} or above it: this is no repository")


class Crates:
    """The crates of a repository: the line of each in crates.txt, as it stands, and the names of those that it uses."""

    def __init__(self, top=TOP):
        self.top, self.line, self.uses = top, {}, {}
        for line in (top / "crates.txt").read_text().splitlines():
            name, colon, uses = line.partition("#")[0].partition(":")
            if colon:
                self.line[name.split()[0]], self.uses[name.split()[0]] = line, uses.split()

    def folder(self, name):
        """The folder of a crate; a name that is not listed is a Trouble."""
        if name not in self.line:
            raise Trouble(f"crates.txt lists no crate {name}; it lists {', '.join(self.line)}")
        return self.top / "crates" / name

    def below(self, name):
        """The crates of the repository that a crate needs, each after those that it needs itself."""
        found = []
        for used in self.uses[name]:
            if used in self.line:
                found += [one for one in self.below(used) + [used] if one not in found]
        return found


def module_of(file):
    """What stands before the name of a function of a source file."""
    return "" if file.stem in ("lib", "main") else file.stem + "::"


def sources(crate):
    """The source files of a crate's folder."""
    return sorted((crate / "src").glob("*.rt"))


def functions(crate):
    """The functions of a crate's folder: a module's as module::function. What stands in an `impl` is none of them."""
    found = []
    for file in sources(crate):
        found += [module_of(file) + name for name in re.findall(f"^{FUNCTION.pattern}", file.read_text(), re.M)]
    return found


def known(crate, name):
    """The name, if the crate has a function of that name; else a Trouble that says which may be meant."""
    has = functions(crate)
    if name in has:
        return name
    near = get_close_matches(name, has, 3, 0.5)
    said = f"is it {' or '.join(near)}?" if near else f"it has {', '.join(has) or 'none'}"
    raise Trouble(f"crate {crate.name} has no function {name}: {said}")


def kept(file, names):
    """The text of a source file without the functions that are not named, and without their comments."""
    lines, out, waiting, i = file.read_text().split("\n"), [], [], 0
    while i < len(lines):
        line = lines[i]
        function = FUNCTION.match(line)
        if function:
            end = i if line.endswith("{}") else lines.index("}", i)
            if module_of(file) + function.group(1) in names:
                out += waiting + lines[i : end + 1]
            waiting, i = [], end
        elif line.startswith("//") or line.startswith("#["):
            waiting.append(line)
        else:
            out += waiting + [line]
            waiting = []
        i += 1
    return "\n".join(out)
