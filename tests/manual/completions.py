"""What the completions offer: asked of the shell itself where it is installed, and else read from the file."""

import re
import shutil
import subprocess
import tempfile
from pathlib import Path

import support

FOLDER = support.TOP / "completions"
SECONDS = 20


def run(words, **how):
    done = subprocess.run(
        words, stdin=subprocess.DEVNULL, stdout=subprocess.PIPE, stderr=subprocess.STDOUT, timeout=SECONDS, **how
    )
    return done.stdout.decode("utf-8", "replace").splitlines()


class Bash:
    name = "bash"
    file = FOLDER / "mdcli.bash"
    script = """
        source "$1"
        COMP_WORDS=("${@:2}") COMP_CWORD=$(($# - 2))
        _mdcli
        for word in "${COMPREPLY[@]}"; do printf '%s\\n' "$word"; done
    """

    def how(self):
        return "loaded"

    def ask(self, words, folder="/"):
        """What is offered for the last of the words."""
        return run(["bash", "--norc", "-c", self.script, "bash", str(self.file)] + words, cwd=folder)

    def commands(self):
        return {word for word in self.ask(["mdcli", ""]) if not word.startswith("-")}

    def options(self, command):
        return set(self.ask(["mdcli", command, "--"]))


class Zsh:
    name = "zsh"
    file = FOLDER / "_mdcli"
    # The functions that zsh's completion gives print what they are handed, in the place of offering it.
    script = """
        asked=$2
        _arguments() {
          if [[ "$*" != *'->'* ]]; then print -rl -- "$@"; return; fi
          if [[ -n $asked ]]; then state=argument words=($asked ''); else state=command; fi
        }
        _describe() { print -rl -- "${(@P)2}"; }
        source "$1"
    """

    def how(self):
        return "loaded" if shutil.which("zsh") else "read as text"

    def commands(self):
        if shutil.which("zsh"):
            lines = run(["zsh", "-f", "-c", self.script, "zsh", str(self.file), ""])
        else:
            lines = re.search(r"commands=\((.*?)\n *\)", self.file.read_text(), re.S).group(1).split("\n")
        found = [re.match(r" *'?([a-z-]+):", line) for line in lines]
        return {one.group(1) for one in found if one}

    def options(self, command):
        if shutil.which("zsh"):
            lines = run(["zsh", "-f", "-c", self.script, "zsh", str(self.file), command])
        else:
            lines = re.sub(r"\{-\w,(--\w+)\}", r"\n\1", self.branch(command)).split("\n")
        return set(re.findall(r"(?m)^\W*(--[a-z-]+)", "\n".join(self.without_groups(line) for line in lines)))

    @staticmethod
    def without_groups(line):
        """A line without the list of what its option shuts out, which stands in front of it."""
        return re.sub(r"^[\s']*\([^)]*\)'?", "", line)

    def branch(self, command):
        """The lines of the command's case, and of the options that it names as `$..._option'."""
        text = self.file.read_text()
        for names, body in re.findall(r"\n        ([a-z| -]+)\)\n(.*?);;", text, re.S):
            if command in re.split(r"[ |]+", names):
                for name in re.findall(r"\$(\w+_option)", body):
                    body += "".join("\n" + one for one in re.findall(r"\b%s=\('(.*?)'\)" % name, text))
                return body
        return ""


class Fish:
    name = "fish"
    file = FOLDER / "mdcli.fish"

    def how(self):
        return "loaded" if shutil.which("fish") else "read as text"

    def ask(self, line):
        with tempfile.TemporaryDirectory() as folder:
            script = 'source "%s"; complete --do-complete "%s"' % (self.file, line)
            return {word.split("\t")[0] for word in run(["fish", "--no-config", "-c", script], cwd=folder)}

    def lines_for(self, condition):
        return [line for line in self.file.read_text().splitlines() if re.search(condition, line)]

    def commands(self):
        if shutil.which("fish"):
            return self.ask("mdcli ")
        lines = self.lines_for("-n __fish_use_subcommand -a")
        return {re.search(r" -a (\S+)", line).group(1) for line in lines}

    def options(self, command):
        if shutil.which("fish"):
            return self.ask("mdcli %s --" % command)
        lines = self.lines_for(r"-n '__fish_seen_subcommand_from ([a-z-]+ )*%s( [a-z-]+)*' .*-l " % re.escape(command))
        lines += [line for line in self.lines_for(" -l ") if " -n " not in line]
        return {"--" + re.search(r" -l (\S+)", line).group(1) for line in lines}


SHELLS = [Bash(), Zsh(), Fish()]


def bash_details():
    """What only the loaded completion of bash shows: a name, and the reasons against it."""
    bash = Bash()
    with tempfile.TemporaryDirectory() as folder:
        Path(folder, "a.img").touch()
        for name, words, wanted in (
            ("an image", ["mdcli", "examine", "a"], ["a.img"]),
            ("a missing member", ["mdcli", "create", ""], ["missing", "a.img"]),
            ("no missing member of an array that is there", ["mdcli", "detail", "m"], []),
            ("a level", ["mdcli", "create", "--level", "r"], ["raid1"]),
            ("a level after =", ["mdcli", "create", "--level", "=", "m"], ["mirror"]),
            ("an image that joins", ["mdcli", "add", "--device", "a"], ["a.img"]),
            ("an image that joins after =", ["mdcli", "add", "--device", "=", "a"], ["a.img"]),
            ("an image that comes back", ["mdcli", "re-add", "--device", "a"], ["a.img"]),
            ("no missing member in the place of one that joins", ["mdcli", "add", "--device", "m"], []),
            ("nothing for a UUID", ["mdcli", "create", "--uuid", ""], []),
            ("images alone after --", ["mdcli", "create", "--", "--"], []),
            ("a command by its beginning", ["mdcli", "examine-b"], ["examine-bitmap", "examine-badblocks"]),
        ):
            found = bash.ask(words, folder)
            yield name, [] if found == wanted else ["it offers %r, and not %r" % (found, wanted)]
        given = bash.ask(["mdcli", "create", "--name", "n", "--na"], folder)
        yield "no option twice", ["it offers %r" % given] if given else []
