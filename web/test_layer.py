"""Tries what the page answers to the program, sound and with each of many planted faults.

    python3 -m unittest discover -s web -p test_layer.py

test_layer.mjs says what each function of web/page has to do, and test_memory.c what those of memory.c have to; both are run by
what is here, without a browser. The images are compared with objcopy's, the wirings with stmflash-line's.
"""

import concurrent.futures
import gzip
import json
import os
import pathlib
import random
import re
import runpy
import shutil
import struct
import subprocess
import sys
import tempfile
import types
import unittest

HERE = os.path.dirname(os.path.abspath(__file__))
TOP = os.path.dirname(HERE)
sys.path.insert(0, f"{TOP}/tools")

import slips

MODULE = f"{TOP}/bin/web/stmflash.wasm"
NODE = ["node", "--experimental-wasm-memory64", "--no-warnings"]
# tries copies of the page, each in a thread of one node, some at once, since each mostly waits for its lines: their statuses
EACH = """const { Worker } = require('worker_threads'), [layer, ...left] = process.argv.slice(1), all = [], some = left.entries();
    const one = (folder) => new Promise((ends) => new Worker(layer, { argv: [folder, '', '--first'], stdout: true }).on('error', () => {}).on('exit', ends));
    Promise.all([1, 2, 3, 4].map(async () => { for (const [i, it] of some) all[i] = await one(it); })).then(() => console.log(...all))"""
FAULTS = list(slips.read(pathlib.Path(f"{HERE}/slips").read_text(encoding="utf-8")))


def run(words, **how):
    return subprocess.run(words, capture_output=True, text=True, timeout=600, **how)


def elf(segments):
    """An ELF for ARM with these segments: where each is stored, where it runs, and its bytes; and one with no bytes."""
    heads, bodies, at = [], [], 52 + 32 * (len(segments) + 1)
    for stored, runs, data in [*segments, (0x20001000, 0x20001000, b"")]:
        heads.append(struct.pack("<8I", 1, at, runs, stored, len(data), len(data) + 64 * (not data), 5, 4))
        bodies.append(data)
        at += len(data)
    head = b"\x7fELF\x01\x01\x01" + bytes(9) + struct.pack("<2H5I6H", 2, 40, 1, 0x08000000, 52, 0, 0x5000400, 52, 32, len(heads), 40, 0, 0)
    return head + b"".join(heads + bodies)


class Tried(unittest.TestCase):
    def setUp(self):
        for tool in ("node", "gcc", "tsc", "objcopy", "rt"):
            if shutil.which(tool) is None:
                self.skipTest(f"there is no {tool}")
        self.room = self.enterContext(tempfile.TemporaryDirectory(prefix="stmflash-web-"))

    def try_page(self, folder, *words):
        return run([*NODE, f"{HERE}/test_layer.mjs", folder, *words])

    def assertHolds(self, ran):
        self.assertEqual((ran.returncode, ran.stderr), (0, ""), ran.stdout[:2000])
        self.assertRegex(ran.stdout, r"\A(\d+) of \1 hold\n\Z")


class Module(Tried):
    """What asks for the module of bin/web."""

    def test_asks_for_what_is_answered(self):
        self.assertHolds(self.try_page(f"{HERE}/page", MODULE))

    def test_is_small(self):
        sizes = [len(gzip.compress(it.read_bytes())) for it in pathlib.Path(MODULE).parent.iterdir()]  # as a server sends each
        self.assertTrue(max(sizes) <= 520_000 and sum(sizes) - max(sizes) <= 42_000, sizes)


class Layer(Tried):
    def try_memory(self, path, *flags):
        program = f"{self.room}/{os.path.basename(os.path.dirname(path))}-memory"
        made = run(["gcc", "-O2", *flags, f'-DMEMORY="{path}"', "-o", program, f"{HERE}/test_memory.c"])
        self.assertEqual((made.returncode, made.stderr), (0, ""))
        return run([program])

    def with_fault(self, name, old, new):
        """The folder of a copy with a fault."""
        folder = tempfile.mkdtemp(dir=self.room)
        shutil.copytree(f"{HERE}/page", folder, dirs_exist_ok=True)
        path = pathlib.Path(shutil.copy(f"{HERE}/memory.c", folder)).with_name(name)
        self.assertEqual(path.read_text().count(old), 1, f"{name} has this once: {old}")
        path.write_text(path.read_text().replace(old, new))
        return folder

    def test_the_page(self):
        self.assertHolds(self.try_page(f"{HERE}/page"))

    def test_memory(self):
        self.assertHolds(self.try_memory(f"{HERE}/memory.c", "-Wall", "-Wextra", "-Werror"))

    def test_types(self):
        self.assertEqual(((ran := run(["tsc", "-p", f"{HERE}/tsconfig.json"])).returncode, ran.stdout), (0, ""))

    def test_finds_each_fault(self):
        planted = [("nothing", f"{HERE}/page"), *((f"{file}: {name}", self.with_fault(file, old, new)) for name, file, _, old, new in FAULTS)]
        with concurrent.futures.ThreadPoolExecutor() as pool:
            told = pool.submit(run, [*NODE, "-e", EACH, f"{HERE}/test_layer.mjs", *(it for what, it in planted if not what.startswith("memory.c"))])
            found = {what: self.try_memory(f"{it}/memory.c", "-w").returncode for what, it in planted if what.startswith("memory.c")}
        told = iter(told.result().stdout.split())
        for what, _ in planted:
            with self.subTest(what):
                (self.assertEqual if what == "nothing" else self.assertNotEqual)(str(found[what] if what in found else next(told)), "0")

    def test_the_proved_module_is_retargeted(self):
        """What is 64-bit ARM's goes, and neighbours are added lane by lane; other code of one processor ends the build."""
        build = types.SimpleNamespace(**runpy.run_path(f"{HERE}/build"))
        text = ['target datalayout = "e-m:e"\n', 'target triple = "aarch64-unknown-linux-gnu"\n',
                "  %c = tail call <16 x i8> @llvm.aarch64.neon.addp.v16i8(<16 x i8> %a, <16 x i8> %b)\n", '  call void asm sideeffect "", "r"(ptr %p)\n',
                "  uselistorder i32 1, { 1, 0 }\n", "declare <16 x i8> @llvm.aarch64.neon.addp.v16i8(<16 x i8>, <16 x i8>)\n",
                'attributes #0 = { nounwind "target-cpu"="generic" "target-features"="+neon" }\n']
        triple, even, odd, total, hidden, attributes = build.retarget.retarget(build.TARGET, build.without_arm(text))
        self.assertEqual((triple, hidden, attributes), ('target triple = "wasm64-unknown-unknown"\n', text[3], "attributes #0 = { nounwind }\n"))
        lanes = [[int(it) for it in re.findall(r"i32 (\d+)", line)] for line in (even, odd)]
        self.assertEqual(sorted(zip(*lanes)), [(2 * i, 2 * i + 1) for i in range(16)])
        self.assertEqual(total, "  %c = add <16 x i8> %c.even, %c.odd\n")
        for line in ("  %c = call i64 @llvm.aarch64.crc32b(i64 %a)\n", '  call void asm sideeffect "nop", ""()\n'):
            with self.assertRaises(SystemExit):
                list(build.retarget.retarget(build.TARGET, build.without_arm([line])))

    def test_a_page_has_the_sum_of_each_file_and_a_version(self):
        """One that is the same for the same bytes, and another for any others, of whichever file."""
        page, folder, versions = pathlib.Path(self.room, "web/page"), pathlib.Path(self.room, "one"), []
        shutil.copytree(f"{HERE}/page", page)
        shutil.copy(f"{TOP}/chips.toml", self.room)
        put = runpy.run_path(f"{HERE}/build")["put"]
        put.__globals__.update(HERE=page.parent, TOP=self.room)
        sources = [it for it in (pathlib.Path(self.room, "chips.toml"), pathlib.Path(shutil.copy(f"{HERE}/build", self.room)), *page.iterdir()) if it.name != "offline.js"]
        for path in (None, None, *sources):
            if path:
                path.write_bytes(path.read_bytes() + b"\n")
            shutil.rmtree(folder, ignore_errors=True)
            folder.mkdir()
            put(folder, "a verdict", sources[1])
            versions.append(re.search("'stmflash-(.*)'", (folder / "offline.js").read_text())[1])
        self.assertEqual((versions[0], len({*versions})), (versions[1], len(sources) + 1))
        (folder / "older.js").write_bytes(b"// of a page before\n")
        run([f"{HERE}/build", "--page", folder], check=True, env={**os.environ, "TMPDIR": "/dev/shm"})
        self.assertEqual(run(["sha256sum", "--check", "--quiet", "SHA256SUMS"], cwd=folder).stdout, "")
        self.assertEqual({line.split()[1] for line in (folder / "SHA256SUMS").read_text().splitlines()}, {*os.listdir(folder)} - {"SHA256SUMS"})

    def test_wirings_are_those_of_stmflash_line(self):
        sys.path.insert(0, f"{TOP}/line")
        from stmflash_line.sequences import read_sequence, read_wiring

        def said(steps):
            names = {"requestToSend": "rts", "dataTerminalReady": "dtr"}
            return [("wait", it["wait"] / 1000) if "wait" in it else (names[next(iter(it["signals"]))], next(iter(it["signals"].values()))) for it in steps]

        wirings = json.loads(self.try_page(f"{HERE}/page", "", "--wirings").stdout.splitlines()[0])
        self.assertEqual(len(wirings), 12)
        for name, steps in wirings.items():
            self.assertEqual([said(steps[it]) for it in ("entry", "leave")], [read_sequence(it) for it in read_wiring(name)], name)

    def test_images_are_those_of_objcopy(self):
        """Segments in any order, over an end of 64 KiB, one stored elsewhere than it runs, and one that has no bytes."""
        some = random.Random(5)
        segments = [(0x0800FFF3, 0x0800FFF3, some.randbytes(1000)), (0x08000001, 0x08000001, some.randbytes(1)), (0x08020000, 0x20000000, some.randbytes(77))]
        pathlib.Path(f"{self.room}/made.elf").write_bytes(elf(segments))
        script = f"""import {{ imageOf }} from '{HERE}/page/image.js'; import * as fs from 'node:fs';
            const it = imageOf('a', fs.readFileSync('{self.room}/made.elf')); console.log(`${{it.says}}
${{JSON.stringify(it.parts.map(({{ at, bytes }}) => [at, [...bytes]]))}}\n${{new TextDecoder().decode(it.bytes)}}`);"""
        says, parts, made = run([*NODE, "--input-type=module", "-e", script]).stdout.split("\n", 2)
        self.assertEqual(says, "a: ELF, 1078 bytes from 08000001 to 0802004C")
        wanted = {at + i: it for at, _, data in segments for i, it in enumerate(data)}
        self.assertEqual({at + i: it for at, data in json.loads(parts) for i, it in enumerate(data)}, wanted)
        # objcopy reads what we wrote
        pathlib.Path(f"{self.room}/made.hex").write_text(made)
        run(["objcopy", "-I", "ihex", "-O", "binary", "--gap-fill=255", f"{self.room}/made.hex", f"{self.room}/made.bin"], check=True)
        self.assertEqual(pathlib.Path(f"{self.room}/made.bin").read_bytes(), bytes(wanted.get(at, 255) for at in range(min(wanted), max(wanted) + 1)))
