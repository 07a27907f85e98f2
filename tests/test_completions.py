"""The completions of the shells name every subcommand, option and protection that the program and stmflash-line tell in their help."""

import os
import pty
import re
import shlex
import shutil
import signal
import subprocess
import sys
import time

from place import PATIENCE, TOP, Place, readable, text_in

FOLDER = os.path.join(TOP, "packaging", "completions")
KINDS = {"write-unprotect", "readout-protect", "readout-unprotect"}
# prints each text that may be typed before each word that is offered behind it
BASH = """. "$1"; shift; for typed; do COMP_WORDS=($typed); [[ $typed != *" " ]] || COMP_WORDS+=(""); COMP_CWORD=$((${#COMP_WORDS[@]} - 1))
by=($(complete -p "${COMP_WORDS[0]}")); "${by[-2]}"; for it in "${COMPREPLY[@]}"; do echo "$typed: $it"; done; done"""
FISH = 'for it in $argv[1..3]; source $it; end; for typed in $argv[4..]; for it in (complete -C "$typed"); echo "$typed: $it"; end; end'
# the same of what zsh is told; and an option there, with what stands behind it, if anything does
ZSH = """_arguments() { print -rl -- "$typed: "${^@}; }; _describe() { print -rl -- "$typed: "${(P)^2}; }
file=$1; shift; for typed; do words=(${=typed} ""); CURRENT=$#words; service=$words[1]; . $file; done"""
OPTION = re.compile(r"(?:\([^)]*\))?\*?(-\w|--[a-z-]+)\[(?:\\.|[^]])*\](?::(?:\\.|[^:])*(:.*))?")


def options(text):
    """The options of a help text: each line of one begins with it."""
    found = set()
    for line in re.findall(r"^ {2,6}(-.*)$", text, re.M):
        found |= set(re.findall(r"(?<![\w-])(-\w|--[a-z][a-z-]*)", line.split("  ")[0]))
    return found


# what is typed behind this, and what is offered there
CALL = "stmflash-line /dev/ttyUSB0 --baud 9600 -- stmflash"
BEHIND = (("ver", "verify"), ("write --prog", "--progress"), ("write a.hex the-im", "the-image.hex"), (r"write it\'s.hex --prog", "--progress"))

# behind these stands a file
FILES = [f"stmflash{it}" for it in (" write --table table", " write", " write --table", " write --journal", " write --keep-to", " write --device",
                                    " read", " verify", " keep", " log --journal", " sim --flash",
                                    " sim --socket", "-line --socket", "-trial --device", "-trial --table", "-trial --save", "-trial --out")]


class Completions(Place):
    begins = {"the-image.hex": b""}

    def help_of(self, *words):
        said = self.call(*words, "--help")
        self.assertWell(said)
        return said.out.decode()

    def subcommands(self):
        return set(re.findall(r"^  ([a-z]+) ", self.help_of().split("Commands:\n")[1].split("\n\n")[0], re.M))

    def options_of(self, script):
        """The options of a companion."""
        return options("\n".join(self.shell(sys.executable, os.path.join(TOP, "line", script), "--help")))

    def shell(self, name, *words):
        """What a shell prints; the test is left out where it isn't installed."""
        if not shutil.which(name):
            self.skipTest(f"{name} isn't installed")
        ran = subprocess.run([name, *words], cwd=self.folder, capture_output=True, text=True, timeout=PATIENCE)
        self.assertEqual((ran.returncode, ran.stderr), (0, ""), words)
        return set(ran.stdout.split("\n")) - {""}

    def both(self, offered, but="--"):
        """Tries what bash offers behind what is typed, and what fish does, where the completions of all programs are installed: the same, but for
        some words."""
        names = [[os.path.join(FOLDER, f"stmflash{it}") for it in those] for those in ((".bash",), (".fish", "-line.fish", "-trial.fish"))]
        for said in (self.shell("bash", "-c", BASH, "bash", *names[0], *offered), self.shell("fish", "--no-config", "-c", FISH, *names[1], *offered)):
            found = {typed: set() for typed in offered}
            for typed, _, word in (line.split("\t")[0].partition(": ") for line in said):
                found[typed] |= {word.removesuffix("/")} if not re.fullmatch(but, word) else set()
            self.each(offered, lambda typed: self.assertEqual((typed, found[typed]), (typed, offered[typed])))

    def zsh_makes(self, typed, made):
        """Types this into zsh, and a tab, and waits for what it makes of it."""
        process, terminal = pty.fork()
        if process == 0:
            os.chdir(self.folder)
            os.execvpe("zsh", ["zsh", "-f", "-i"], {"PATH": os.environ["PATH"], "TERM": "dumb", "HOME": self.folder})
        try:
            os.write(terminal, f"PS1=; fpath=({shlex.quote(FOLDER)} $fpath); autoload -U compinit; compinit -u -D; print rea''dy\n".encode())
            self.wait_for(terminal, b"ready")
            os.write(terminal, typed.encode() + b"\t")
            self.wait_for(terminal, made.encode())
        finally:
            os.kill(process, signal.SIGKILL)
            os.waitpid(process, 0)
            os.close(terminal)

    def wait_for(self, terminal, text):
        held, end = b"", time.monotonic() + PATIENCE
        while text not in held:
            self.assertTrue(readable([terminal], max(0, end - time.monotonic())), f"{text} doesn't come: {held}")
            held += os.read(terminal, 4096)

    def test_what_follows_in_a_call_of_the_line(self):
        """Behind `--` stands a command, which is completed as it is by itself: subcommands, options and files."""
        self.both({**{f"{CALL} {typed}": {offered} for typed, offered in BEHIND}, "stmflash-line /dev/ttyUSB0 -- stmflash-trial --sp": {"--speeds"},
                   "stmflash-line /dev/ttyUSB0 -- tru": {"true"}}, "tru(?!e$).*")

    def test_what_follows_in_zsh(self):
        if not shutil.which("zsh"):
            self.skipTest("zsh isn't installed")
        self.each(BEHIND, lambda typed, offered: self.zsh_makes(f"{CALL} {typed}", f"-- stmflash {''.join(typed.rpartition(' ')[:2])}{offered} "))

    def test_what_each_takes_is_offered(self):
        subcommands = self.subcommands()
        self.both({"stmflash ": subcommands, "stmflash -": options(self.help_of()), f"{CALL} info -": options(self.help_of("info")),
                   **{f"stmflash {name} -": options(self.help_of(name)) for name in subcommands - {"help"}},
                   **{f"{name} -": self.options_of(name) for name in ("stmflash-line", "stmflash-trial")}, "stmflash protect ": KINDS})

    def test_files_are_offered_with_their_blanks(self):
        self.store("an image.hex", b"")
        self.both({**{f"{words} an": {"an image.hex"} for words in FILES}, "stmflash info --device si": {"sim:"}})

    def told_in_zsh(self):
        """What zsh is told of what each takes: by subcommand or companion, the specifications of `_arguments`; and the options of each, by its help."""
        taken = {f"stmflash {name}": options(self.help_of(name)) for name in self.subcommands() - {"help"}}
        taken |= {name: self.options_of(name) for name in ("stmflash-line", "stmflash-trial")}
        said = self.shell("zsh", "-f", "-c", ZSH, "zsh", os.path.join(FOLDER, "_stmflash"), *taken, "stmflash help")
        return taken, {typed: [line.partition(": ")[2] for line in said if line.startswith(f"{typed}: ")] for typed in (*taken, "stmflash help")}

    def test_zsh_names_what_each_takes(self):
        """And the manual page of stmflash-trial has it."""
        taken, told = self.told_in_zsh()
        self.assertEqual({it.partition(":")[0] for it in told["stmflash help"]}, self.subcommands())
        self.each(taken, lambda typed: self.assertEqual({it[1] for it in map(OPTION.match, told[typed]) if it}, taken[typed]))
        self.assertEqual([OPTION.match(it)[1] for it in told["stmflash sim"] if it.startswith("*")], re.findall(r"(--\S+) .*several times", self.help_of("sim")))
        manual = text_in("line", "stmflash-trial.1").replace("\\", "")
        self.assertEqual([option for option in taken["stmflash-trial"] - {"-h", "--help"} if f" {option}" not in manual], [])

    def test_all_offer_the_same_behind_an_option(self):
        """Files, folders, some words or nothing."""
        os.mkdir(self.path("a-folder"))
        files, wanted = os.listdir(self.folder), {}
        for typed, option, action in ((typed, it[1], it[2]) for typed, told in self.told_in_zsh()[1].items() for it in map(OPTION.match, told) if it and it[2]):
            words = {":_files": files, ":_files -/": ["a-folder"], ":_stmflash_device": [*files, "sim:"]}.get(action, re.findall(r"[\w,-]+", action))
            wanted[f"{typed} {option} "] = set() if action.startswith(":{") else set(words)
        self.assertGreater(len(wanted), 100)
        # (which ports there are is the machine's)
        self.both(wanted, "/dev/.*|gpiochip.*|inverted-")

    def test_all_offer_the_same_ports(self):
        kinds = set(re.search(r"\(tty\(([A-Z|]+)\)\|serial/\)", text_in(FOLDER, "stmflash.bash"))[1].split("|"))
        for name, ports in (("_stmflash", 2), ("stmflash-line.fish", 1), ("stmflash-trial.fish", 1)):
            self.assertEqual(text_in(FOLDER, name).count(" /dev/serial/by-id/*"), ports, name)
            found = re.findall(r"/dev/tty(?:\(([A-Z|]+)\)|([A-Z]+))\*", text_in(FOLDER, name))
            self.assertEqual({kind for one, other in found for kind in (one or other).split("|")}, kinds, name)
