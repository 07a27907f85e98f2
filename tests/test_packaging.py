"""What packaging/deb refuses: no package says of a program that it is proved which isn't. And what a release is made of."""

import concurrent.futures
import email.utils
import glob
import os
import pathlib
import re
import shutil
import stat
import subprocess
import tempfile
import unittest
import zipfile

from place import PATIENCE, TOP, is_unproved, program, text_in

# what is installed, by its folder, and what it is a copy of
INSTALLED = {"bin/": "line/stmflash-line line/stmflash-trial", "share/man/man1/": "stmflash.1 line/stmflash-line.1 line/stmflash-trial.1",
             "share/stmflash/": "chips.toml", "share/stmflash/stmflash_line/": "line/stmflash_line/*.py", "share/stmflash/trial/": "line/trial/*.py",
             "share/doc/stmflash/": "docs/FORMATS.md docs/MODEL.md docs/answers.schema.json", "share/fish/vendor_completions.d/": "packaging/completions/*.fish",
             "share/bash-completion/completions/": "packaging/completions/*.bash", "share/zsh/vendor-completions/": "packaging/completions/_*",
             "lib/udev/rules.d/": "packaging/*.rules", "lib/systemd/system/": "packaging/*.service"}


def copies(of):
    """The files that these patterns name, each behind the name of its copy."""
    return [(os.path.basename(it).removesuffix(".bash"), it) for pattern in of.split() for it in glob.glob(pattern, root_dir=TOP)]


class Packaging(unittest.TestCase):
    def folder(self):
        """A folder for this test, with a blank in its name."""
        return self.enterContext(tempfile.TemporaryDirectory(prefix="a test_"))

    def refused(self, path, folder, *words):
        """What is said where no package is made of this program; its folder has that one file then."""
        ran = subprocess.run([os.path.join(TOP, "packaging", "deb"), *words, path, folder], capture_output=True, text=True, timeout=60)
        self.assertEqual((ran.returncode, ran.stdout, os.listdir(folder)), (1, "", ["one"]))
        return ran.stderr

    def needs(self, **packages):
        """Leaves the test out where one of these tools isn't there, with the name of its package."""
        for tool, package in packages.items():
            if shutil.which(tool) is None:
                self.skipTest(f"there is no {package}")

    def test_no_package_of_a_program_that_is_not_proved(self):
        self.needs(readelf="binutils")
        folder = self.folder()
        # a program that isn't of the kit, and a file that is none, with the kit's word in it
        other, text = os.path.realpath(shutil.which("readelf")), os.path.join(folder, "one")
        pathlib.Path(text).write_text("rattle logic=dac8208d\n", encoding="utf-8")
        for path in (other, text, *[program().removesuffix("-under-qemu")] * is_unproved()):
            self.assertEqual(self.refused(path, folder), f"packaging/deb: {path} isn't proved, and no package is made of it\n")

    def test_what_a_program_says_of_its_proof(self):
        """One that says that it is proved has no package of one that isn't, and none has one that says nothing, or of another logic than the code names."""
        self.needs(readelf="binutils", gcc="gcc")
        version, folder = text_in("packaging", "changelog")[len("stmflash ("):].split("-")[0], self.folder()
        path, proved = os.path.join(folder, "one"), f"stmflash {version}, proved by rattle logic dac8208d650f15bf"
        for said, logic, fault in ((proved, "", f"the program says `{proved}`, and not `stmflash {version}, not proved`"),
                                   (f"stmflash {version}", "", f"the program says `stmflash {version}`, and not `stmflash {version}, not proved`"),
                                   ("stmflash", "0123456789abcdef", f"{path} is proved in another logic than the code names"),
                                   ("stmflash", "dac8208d650f15bf3e2d", f"the program says `stmflash`, and not `{proved}`")):
            text = f'#include <stdio.h>\n__asm__(".ident \\"rattle logic={logic}\\"");\nint main(void) {{ return puts("{said}") < 0; }}\n'
            subprocess.run(["gcc", "-x", "c", "-", "-o", path], input=text, text=True, check=True)
            self.assertEqual(self.refused(path, folder, *["--unproved"] * (not logic)), f"packaging/deb: {fault}\n")

    def test_what_is_installed_knows_where_it_is(self):
        """Whoever installs it below another folder, and while the program that was there runs: each is on the path with its page and its completions,
        and says its words; the unit calls the one beside it. No link leads to where it was packed, and only what is a program can be run."""
        folder = self.folder()
        top, old = f"{folder}/opt/ours", f"{folder}/opt/ours/bin/stmflash"
        subprocess.run(["install", "-D", shutil.which("sleep"), old], check=True)
        running = subprocess.Popen([old, "60"])
        self.addCleanup(running.wait)
        self.addCleanup(running.kill)
        for _ in ("anew", "over itself"):
            subprocess.run(["make", "install", "PREFIX=/opt/ours", f"DESTDIR={folder}", f"BINARY={program()}"], cwd=TOP, check=True, capture_output=True, umask=0o077)
        for name in ("stmflash", "stmflash-line", "stmflash-trial"):
            # (what runs one of another processor finds it by the name that it has here)
            if name != "stmflash" or not program().endswith("-under-qemu"):
                ran = subprocess.run([os.path.join(top, "bin", name), "--help"], capture_output=True, text=True, timeout=60)
                self.assertEqual((ran.returncode, ran.stderr), (0, ""))
                self.assertIn(f"{name} ", ran.stdout)
        wanted = {to + name: pathlib.Path(TOP, it).read_bytes() for to, of in INSTALLED.items() for name, it in copies(of)}
        wanted |= {f"share/bash-completion/completions/stmflash{it}": "stmflash" for it in ("-line", "-trial")}
        unit = "lib/systemd/system/stmflash-line@.service"
        wanted |= {"bin/stmflash": pathlib.Path(program()).read_bytes(), unit: wanted[unit].replace(b"=/usr/bin/", b"=/opt/ours/bin/")}
        held = {}
        for path in glob.glob(f"{top}/**", recursive=True):
            self.assertEqual(os.stat(path).st_mode & 0o7777, 0o755 if os.path.isdir(path) or "/bin/" in path else 0o644, path)
            if not os.path.isdir(path):
                held[os.path.relpath(path, top)] = os.readlink(path) if os.path.islink(path) else pathlib.Path(path).read_bytes()
        self.assertEqual([it for it in {*held, *wanted} if held.get(it) != wanted.get(it)], [])

    def test_a_tagged_adapter_is_nobody_elses(self):
        """ModemManager leaves it alone, whoever sits there may use it, and it is quick."""
        self.assertEqual([line for line in text_in("packaging", "70-stmflash.rules").splitlines() if not line.startswith("#")],
                         [f'ACTION!="remove", SUBSYSTEM=="tty", TAG=="stmflash", {it}' for it in (
                             'ENV{ID_MM_PORT_IGNORE}="1", TAG+="uaccess"', 'TEST=="device/latency_timer", ATTR{device/latency_timer}="1"')])

    def instead(self, room, **tools):
        """The variables by which a script that calls one of these tools does this; `tree` is what is packed, and `last` the last word."""
        for name, does in tools.items():
            text = f'#!/bin/sh\nfor last; do [ ! -d "$last/DEBIAN" ] || tree=$last; done\n{does}\n'
            subprocess.run(["install", "-m", "755", "/dev/stdin", f"{room}/{name.replace('_', '-')}"], input=text, text=True, check=True)
        return {**os.environ, "PATH": f"{room}:{os.environ['PATH']}"}

    def packed(self, *words, folder=None):
        """What a script packs, whoever calls it: the fields of its control file, and the folder of its files. Each has its sum, is root's, and may be
        read by all."""
        self.needs(**{"dpkg-deb": "dpkg-dev"})
        room = self.folder()
        # (a language's order is another than that of bytes)
        others = self.instead(room, dpkg_deb=f'chown -R 1:1 "$tree" 2> /dev/null; exec {shutil.which("dpkg-deb")} "$@"',
                              sort='[ "$LC_ALL" = C ] || set -- -r "$@"; exec /usr/bin/sort "$@"')
        others |= {"LC_ALL": "C.UTF-8", "LANGUAGE": "sv:ja:zh_CN:de:fr", "TMPDIR": self.folder(), "SOURCE_DATE_EPOCH": "1767384246", "TZ": "UTC"}
        when, at = subprocess.run([f"{TOP}/packaging/{words[0]}", *words[1:]], capture_output=True, text=True, timeout=PATIENCE, cwd=folder or room,
                                  env=self.instead(self.folder(), dpkg_deb='echo "$SOURCE_DATE_EPOCH" "$last" >&2; exit 1')).stderr.split(" ", 1)
        newest = email.utils.parsedate_to_datetime(re.search(">  (.*)", text_in("packaging", "changelog"))[1])
        self.assertEqual((int(when), os.path.dirname(at)), (newest.timestamp(), f"{TOP}/bin"), "where no date and no folder is named")
        made = subprocess.run([os.path.join(TOP, "packaging", words[0]), *words[1:], room], capture_output=True, text=True, timeout=PATIENCE,
                              check=True, umask=0o077, env=others, cwd=folder).stdout.strip()
        self.assertEqual(os.listdir(others["TMPDIR"]), [])
        contents = subprocess.run(["dpkg-deb", "--contents", made], capture_output=True, text=True, check=True, env=others).stdout
        self.assertEqual({" ".join(line.split()[1::2][:2] + line.split()[4:5]) for line in contents.splitlines()}, {"root/root 2026-01-02 20:04"})
        subprocess.run(["dpkg-deb", "--raw-extract", made, f"{room}/tree"], check=True)
        fields = dict(re.findall(r"^([\w-]+): (.*)$", text_in(room, "tree/DEBIAN/control"), re.MULTILINE))
        named = re.findall(r"^\w+  (.*)$", text_in(room, "tree/DEBIAN/md5sums"), re.MULTILINE)
        subprocess.run(["md5sum", "--check", "--quiet", "DEBIAN/md5sums"], cwd=f"{room}/tree", check=True)
        paths = sorted(glob.glob("usr/**", root_dir=f"{room}/tree", recursive=True))
        modes = {path: os.lstat(f"{room}/tree/{path}").st_mode for path in paths}
        self.assertEqual((named, [path for path, mode in modes.items() if not mode & 0o004]), ([path for path in paths if stat.S_ISREG(modes[path])], []))
        sizes = [-(-os.path.getsize(f"{room}/tree/{path}") // 1024) if stat.S_ISREG(mode) else 1 for path, mode in modes.items()]
        self.assertEqual(int(fields["Installed-Size"]), sum(sizes), "a folder is as large as its file system says")
        self.assertEqual(text_in(room, f"tree/usr/share/doc/{fields['Package']}/copyright"), text_in("packaging", "copyright"))
        packed = glob.glob(f"{room}/tree/usr/share/**/*.gz", recursive=True)
        self.assertGreater(len(packed), 2)
        self.assertEqual({pathlib.Path(path).read_bytes()[3:8] for path in packed}, {bytes(5)}, "a flag that a name stands there, or a time")
        return fields, f"{room}/tree"

    def test_what_is_in_a_package(self):
        """No time, no order of a language and no compiler's name, so that it is the same each time; and it can't stand beside a proved one."""
        if not is_unproved():
            return
        self.needs(strip="binutils")
        given = pathlib.Path(shutil.copy(program().removesuffix("-under-qemu"), self.folder()))
        held = given.stat().st_mtime_ns
        fields, tree = self.packed("deb", "--unproved", given.name, folder=given.parent)
        told = [fields[it] for it in ("Package", "Source", "Conflicts", "Replaces")] + re.findall(r"^ .*\. (.* was proved .*)$", text_in(tree, "DEBIAN/control"), re.M)
        self.assertEqual([*told, given.stat().st_mtime_ns], ["stmflash-unproved", *3 * ["stmflash"], "Nothing was proved of this program.", held])
        packed = pathlib.Path(tree, "usr/bin/stmflash").read_bytes()
        self.assertNotIn(b".comment", packed[-20000:])
        newest = max(re.findall(rb"GLIBC_([0-9.]+)\0", packed), key=lambda it: [int(part) for part in it.split(b".")]).decode()
        gcc = ["libgcc-s1"] * (b"libgcc_s.so.1" in packed)
        self.assertEqual(fields["Depends"].split(", "), [f"libc6 (>= {newest})", *gcc, "python3", "python3-serial"])

    def test_any_call_of_a_tool_that_fails(self):
        """Without a word, the first and the last of each tool: then no package is made or named, and nothing is left."""
        self.needs(**{"dpkg-deb": "dpkg-dev"})
        script, *words = ("deb", "--unproved", program().removesuffix("-under-qemu")) if is_unproved() else ("deb-as-stm32flash",)
        # (what is there, and which processor is this one, isn't what the package is made of)
        named = {it for file in (f"packaging/{script}", "packaging/deb.sh", "Makefile") for it in re.findall(r"[a-z][a-z0-9-]+", text_in(file))} - {"rm", "sh", "uname"}
        tools = {it: f'echo >> "$CALLS/{it}"; [ "{it} $(/usr/bin/wc -l < "$CALLS/{it}")" != "$FAILS" ] || exit 1; exec {shutil.which(it)} "$@"'
                 for it in named if shutil.which(it)}
        stand_ins = self.instead(self.folder(), **tools)

        def pack(fails):
            calls, folder, temporary = self.folder(), self.folder(), self.folder()
            env = {**stand_ins, "CALLS": calls, "FAILS": fails, "TMPDIR": temporary, "SOURCE_DATE_EPOCH": ""}
            ran = subprocess.run([f"{TOP}/packaging/{script}", *words, folder], capture_output=True, text=True, timeout=PATIENCE, env=env)
            return calls, (fails, ran.returncode == 0, ran.stdout, os.listdir(folder), os.listdir(temporary))

        calls, made = pack("")
        each = [f"{it} {number}" for it in os.listdir(calls) for number in {1, os.path.getsize(f"{calls}/{it}")}]
        self.assertTrue(made[1] and len(each) > 20)
        with concurrent.futures.ThreadPoolExecutor(4) as pool:
            self.assertEqual([it for _, it in pool.map(pack, each) if it[1:] != (False, "", [], [])], [])

    def test_what_the_package_of_stm32flashs_words_wants(self):
        """Just the stmflash that it was made beside, whose answers it reads; it stands in the place of Debian's own."""
        fields, tree = self.packed("deb-as-stm32flash")
        full = text_in("packaging", "changelog").split("(")[1].split(")")[0]
        self.assertEqual([fields[name] for name in ("Version", "Architecture", "Depends")], [full, "all", f"python3 (>= 3.11), stmflash (= {full})"])
        self.assertEqual([fields[name] for name in ("Provides", "Conflicts", "Replaces")], ["stm32flash (= 0.7)", "stm32flash", "stm32flash"])
        self.assertTrue(os.access(f"{tree}/usr/bin/stm32flash", os.X_OK))
        self.assertEqual(os.listdir(f"{tree}/usr/share/man/man1"), ["stmflash-as-stm32flash.1.gz"])
        shutil.copytree(os.path.join(TOP, "line", "stmflash_line"), f"{tree}/usr/share/stmflash/stmflash_line")
        ran = subprocess.run([f"{tree}/usr/bin/stm32flash", "-h"], capture_output=True, text=True, timeout=60)
        self.assertEqual((ran.returncode, ran.stderr.partition(" [")[0]), (0, "Usage: stm32flash"))

    def release(self, clone, folder, *programs, env=None):
        """As from the folder beside it, in another zone of time. Nothing is left elsewhere."""
        ran = subprocess.run([os.path.join(clone, "packaging", "release"), os.path.basename(folder), *programs], cwd=os.path.dirname(folder),
                             env={**(env or os.environ), "TZ": "Asia-9", "TMPDIR": (room := self.folder())}, capture_output=True, text=True, timeout=60)
        self.assertEqual(os.listdir(room), [])
        return ran.returncode, ran.stderr, ran.stdout

    def test_the_tests_get_their_packages(self):
        """Each by itself, so that one that isn't to be had keeps no other away, nor does a list. What has its settings left alone isn't there."""
        room = self.folder()
        held = self.instead(room, id="echo 0", dpkg_query='grep -qsx "$last" there && echo installed || echo config-files',
                            apt_get='for it; do case $it in update | ser2net) exit 100 ;; esac; done; for it; do echo "$it" >> there; done')
        ran = subprocess.run([os.path.join(TOP, "tools", "packages"), "--gate"], cwd=room, env=held, capture_output=True, text=True, timeout=60)
        self.assertEqual((ran.returncode, ran.stdout.split(), ran.stderr.rpartition(": ")[2]), (0, ["ser2net"], "sudo apt-get install ser2net \n"))

    def test_a_release(self):
        """It is made of what was committed and has a version, and its sums are those of its files."""
        self.needs(git="git", **{"dpkg-deb": "dpkg-dev"})
        with tempfile.TemporaryDirectory(prefix="a room_") as room:
            clone, folder = os.path.join(room, "clone"), os.path.join(room, "a release")
            shutil.copytree(TOP, clone, ignore=shutil.ignore_patterns("out", "bin", ".git", "crates", "__pycache__"))
            git = ["git", "-C", clone, "-c", "user.name=a", "-c", "user.email=a@example.org"]
            log = os.path.join(clone, "CHANGELOG.md")
            pathlib.Path(clone, "packaging/changelog").write_text((it := text_in("packaging", "changelog")) + it.replace("(0.", "(0.0."), encoding="utf-8")
            text = text_in(log)
            released = text[:text.index("## ")] + text[text.index("## 0"):]

            def commit(text):
                pathlib.Path(log).write_text(text, encoding="utf-8")
                for words in (["add", "--all"], ["commit", "--quiet", "--message", "one"]):
                    subprocess.run([*git, *words], check=True, env={**os.environ, "GIT_COMMITTER_DATE": "2026-01-02T20:04:06Z"})

            subprocess.run([*git, "init", "--quiet"], check=True, capture_output=True)
            commit(released.replace("## 0", "## Unreleased\n\n- One.\n\n## 0", 1))
            self.assertEqual(self.release(clone, folder), (1, "packaging/release: CHANGELOG.md has changes of no version yet\n", ""))
            commit(released)
            pathlib.Path(clone, "more").touch()
            self.assertEqual(self.release(clone, folder), (1, "packaging/release: there are changes that aren't committed\n", ""))
            self.assertFalse(os.path.exists(folder))
            os.remove(os.path.join(clone, "more"))
            older = os.path.join(folder, ".older")
            os.makedirs(older)
            self.assertEqual(self.release(clone, folder), (1, f"packaging/release: there is something in {folder}, which may be an older release\n", ""))
            os.removedirs(older)
            program, version = os.path.join(room, "one.exe"), released[released.index("## 0") + 3:].split()[0]
            for name, does in (("_all.deb", {"dpkg_deb": 'echo $$ > "$last"'}), ("a.zip", {"python3": 'echo $$ > "$last/a.zip"'})):
                status, err, _ = self.release(clone, folder, program, env=self.instead(self.folder(), **{"python3": "", **does}))
                self.assertRegex(f"{status} {err}", rf"^1 packaging/release: \S*{name} isn't the same when it is made again\n$")
            for said in ("0.2.0, not proved", "9.2.0, proved by rattle logic dac8208d650f15bf", f"{version}, proved by rattle logic dac8208d650f15bf"):
                pathlib.Path(program).write_text(f"MZ {said}", encoding="utf-8")
                status, err, out = self.release(clone, folder, program)
                if not said.startswith(f"{version}, proved"):
                    self.assertEqual((status, err), (1, f"packaging/zip: {program} isn't proved, and no zip is made of it\n"))
            self.assertEqual((status, err), (0, ""))
            with zipfile.ZipFile(os.path.join(folder, "stmflash-windows-x64.zip")) as made:
                names = {os.path.relpath(name, f"stmflash-{version}"): made.read(name) for name in made.namelist()}
                self.assertEqual({it.date_time for it in made.infolist()}, {(2026, 1, 2, 20, 4, 6)})
            held = {it: pathlib.Path(TOP, it).read_bytes() for it in ("LICENSE", "chips.toml")}
            self.assertEqual(names, {**held, "stmflash.exe": pathlib.Path(program).read_bytes(), "WINDOWS.md": names["WINDOWS.md"]})
            self.assertRegex(names["WINDOWS.md"], rb"(?s)\A## On Windows\n(?!.*\n## ).*Nothing was run on Windows")
            self.assertEqual(sorted(re.findall(r" \./(.*)$", text_in(folder, "SHA256SUMS"), re.M)), sorted({*os.listdir(folder)} - {"SHA256SUMS"}))
            self.assertIn(f"  gpg --armor --detach-sign {folder}/SHA256SUMS\n  git tag --sign --file {folder}/NOTES.md --cleanup=verbatim v{version} && git push origin v{version}\n", out)
            notes = text_in(folder, "NOTES.md")
            self.assertTrue(notes.startswith("## 0") and notes in released and "\n## " not in notes)
            subprocess.run(["sha256sum", "--check", "--quiet", "SHA256SUMS"], cwd=folder, check=True)
