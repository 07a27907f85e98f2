// Tries images, the pages of chips, and what a write would change: for test_layer.mjs.
const bytesOf = (text) => new TextEncoder().encode(text);

export function tryImages({ imageOf }, { chipsOf, lastOf, pagesOf }, { laidOut, ranges, where }, holds) {
  const one = imageOf('a.hex', bytesOf(':020000040800F2\n:04000000010203 04\n'.replace(' ', '')));
  holds('HEX is handed on as it is', [one.isRaw, one.says], [false, 'a.hex: Intel HEX, 4 bytes from 08000000 to 08000003']);
  holds('raw bytes', [imageOf('a.bin', bytesOf('xyz')).isRaw, imageOf('a.bin', bytesOf('xyz')).says], [true, 'a.bin: 3 raw bytes']);
  // two segments, stored elsewhere than they run, the second one over an end of 64 KiB; a note, and what is no head any more
  const elf = new Uint8Array(200), head = new DataView(elf.buffer);
  elf.set([0x7f, 0x45, 0x4c, 0x46, 1, 1]);
  for (const [at, value] of [[18, 40], [28, 52], [42, 32], [44, 3]]) head.setUint16(at, value, true);
  [[1, 180, 0x20000000, 0x08000010, 3], [1, 190, 0x20000100, 0x0800FFFE, 4], [4, 180, 0, 0x08000100, 3], [1, 180, 0, 0x08000200, 3]].forEach((words, i) => words.forEach((it, k) => head.setUint32(52 + 32 * i + 4 * k, it, true)));
  elf.set([1, 2, 3, 0, 0, 0, 0, 0, 0, 0, 4, 5, 6, 7], 180);
  holds('ELF becomes HEX', new TextDecoder().decode(imageOf('a.elf', elf).bytes),
    ':020000040800F2\n:03001000010203E7\n:020000040800F2\n:02FFFE000405F8\n:020000040801F1\n:020000000607F1\n:00000001FF\n');
  const why = (it) => { try { return imageOf('a', it).says; } catch (thrown) { return thrown.message; } };
  elf[18] = 243;
  holds('an ELF for RISC-V is refused', why(elf), 'this ELF isn\'t for ARM');
  elf[4] = 2;
  holds('a 64-bit ELF is refused', why(elf), 'this ELF isn\'t one of 32 bits with the low byte first');
  holds('so is what nothing can be', [why(new Uint8Array()), why(new Uint8Array(2 ** 21)), why(new Uint8Array(2 ** 21 + 1))], ['it has no bytes', 'a: 2097152 raw bytes', 'it is larger than any flash of these chips']);
  const partsOf = (kind, at) => imageOf('a', bytesOf(`:0200000${kind}1000EC\n:02${at}00AABB9B\n`)).parts;
  holds('a segment goes on at its begin, and nothing else does', [partsOf(2, 'FFFF'), partsOf(2, 'FFFE'), partsOf(4, 'FFFF')], [[{ at: 0x1ffff, bytes: [0xaa] }, { at: 0x10000, bytes: [0xbb] }], [{ at: 0x1fffe, bytes: [0xaa, 0xbb] }], [{ at: 0x1000ffff, bytes: [0xaa, 0xbb] }]]);
  const [chip] = chipsOf('# all\n[[chip]]\nname = "x"\nid = 0x41\nbase = 0x08000000\npages = [[2, 16], [1, 64]]\n'), pages = pagesOf(chip.entry);
  holds('a chip and its pages', [chip.id, chip.name, pages], ['0041', 'x', [[0x08000000, 16], [0x08000010, 16], [0x08000020, 64]].map(([at, size]) => ({ at, size }))]);
  holds('those of a smaller part', [pagesOf(chip.entry, 96).length, pagesOf(chip.entry, 95).length], [3, 2]);
  holds('the last pages', [64, 65, 80, 999].map((least) => lastOf(pages, least)), [2, 1, 1, 0]);
  const it = laidOut([{ at: 0x0800001e, bytes: Uint8Array.of(1, 2, 3) }, { at: 0x08000008, bytes: Uint8Array.of(255) }]);
  holds('an image is laid out, with what it leaves', [it.low, it.bytes.length, [...it.bytes].filter((byte) => byte >= 0), it.bytes[1]], [0x08000008, 25, [255, 1, 2, 3], -1]);
  holds('its pages', where(pages, it.low, it.bytes, () => true), { count: 4, numbers: [0, 1, 2] });
  const there = new Uint8Array(25).fill(255);
  there.set([1, 2], 22);
  holds('those that differ', where(pages, it.low, it.bytes, (byte, i) => byte !== there[i]), { count: 1, numbers: [2] });
  holds('too far apart for any flash, and nothing', [laidOut([{ at: 0, bytes: Uint8Array.of(1) }, { at: 2 ** 22, bytes: Uint8Array.of(1) }]) === undefined, laidOut([])], [true, undefined]);
  holds('numbers of pages', [[], [3], [0, 1, 2, 7, 9, 10]].map(ranges), ['', '3', '0-2 7 9-10']);
}
