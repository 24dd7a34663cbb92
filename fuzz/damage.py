"""Edits of bytes, texts and images. Each takes bytes, which aren't empty, and gives others. It is imported, and not called."""

import re
import struct

from fault_rows import SWEEPS
from gnu_as import join, split, word_index
from make_bundle_rows import PLACES, swept_word
from printed_forms import BUNDLE_LIMIT, HEAD, VERSION_1_BUNDLE_LIMIT, MAGICS, RELATION_LIMIT, Layout, entries_of, with_relations

def span(random, data):
    """Two places in the bytes, most often close to each other."""
    first = random.randrange(len(data))
    return first, min(len(data), first + random.choice((1, 1, 2, 4, 16, 256)))


def flip(random, data):
    at = random.randrange(len(data))
    return data[:at] + bytes([data[at] ^ 1 << random.randrange(8)]) + data[at + 1:]


def insert(random, data):
    at = random.randrange(len(data) + 1)
    return data[:at] + random.choice((random_bytes(random, 4), random.choice(PIECES))) + data[at:]


def drop(random, data):
    first, end = span(random, data)
    return data[:first] + data[end:]


def double(random, data):
    first, end = span(random, data)
    return data[:end] + data[first:]


def exchange(random, data):
    (a, b), (c, d) = sorted((span(random, data), span(random, data)))
    return data[:a] + data[c:d] + data[b:c] + data[a:b] + data[d:] if b <= c else data


def cut(random, data):
    return data[:random.randrange(len(data))]


BYTE_EDITS = (flip, flip, insert, drop, double, exchange, cut)
PIECES = [b"{", b"}", b";;", b"\n", b"\r\n", b"\r", b"\t", b" ", b"\0", b",", b"=", b"(p6)", b"//", b"[", b"r0", b"r127", b"p63",
          b"b0", b":", b"#", b"-1", b"0x", b"0" * 300, b"9" * 40, b".data\n", b".text\n", b".entry ", b"ar.pfs", b"{ .mlx\n",
          b"nop 0 ;;\n", b'"', b'"mutex"', b'.pred.rel "mutex",p6,p7\n', b"\xc3\xa9", *MAGICS]


# Edits of texts, by lines.


def line_edit(random, data):
    """Two lines exchanged; one doubled, left out, or put elsewhere; or a word of one in place of another's."""
    lines = data.split(b"\n")
    a, b = random.randrange(len(lines)), random.randrange(len(lines))
    kind = random.randrange(5)
    if kind == 0:
        lines[a], lines[b] = lines[b], lines[a]
    elif kind == 1:
        lines.insert(b, lines[a])
    elif kind == 2:
        del lines[a]
    elif kind == 3:
        lines[b] = lines[a]
    else:
        words, others = re.split(rb"([\w.]+)", lines[a]), re.findall(rb"[\w.]+", lines[b])
        words[random.randrange(len(words))] = random.choice(others or [b""])
        lines[a] = b"".join(words)
    return b"\n".join(lines)


def more_lines(random, data):
    """A long line, or many labels, entries, relations, blank lines or stops somewhere."""
    lines = data.split(b"\n")
    count = random.choice((3, 200, 241, 1025, 5000))
    relations = [b'.pred.rel "mutex",p%d,p%d' % (n % 14 + 1, n % 14 + 2) for n in range(count)]
    more = random.choice(([b"//" + b"x" * count], [b"x%d:" % n for n in range(count)], [b".entry x0"] * count,
                          relations, [b""] * count, [b";;"] * count))
    at = random.randrange(len(lines) + 1)
    return b"\n".join(lines[:at] + more + lines[at:])


TEXT_EDITS = (*BYTE_EDITS, *[line_edit] * 4, more_lines)


# Edits of images and of bundles.


def head_edit(random, image):
    at = random.randrange(8, HEAD, 4)
    number, = struct.unpack("<I", image[at:at + 4])
    number = random.choice((number + 1, number - 1, number + 8, 0, random.getrandbits(32), VERSION_1_BUNDLE_LIMIT + 1, BUNDLE_LIMIT + 1)) % 2**32
    return image[:at] + struct.pack("<I", number) + image[at + 4:]


def part_edit(random, image):
    """A bit of the head, the entries, the relations, the bundles or the data."""
    layout = Layout(image)
    ends = sorted({0, HEAD, layout.after_entries, layout.code, layout.end, len(image)})
    part = random.randrange(len(ends) - 1)
    return image[:ends[part]] + flip(random, image[ends[part]:ends[part + 1]]) + image[ends[part + 1]:]


def version_edit(_random, image):
    """Each version begins as the other one."""
    at = len(MAGICS[0]) - 1
    return image[:at] + bytes([image[at] ^ MAGICS[0][at] ^ MAGICS[1][at]]) + image[at + 1:]


def relations_added(random, image):
    """An image of version 2 with relations at entries of an image, whose head and bundles are right."""
    entries, liked = sorted(entries_of(image)), random.choice((0, 0.5, 1))
    count = random.choice((0, 1, 1, 2, 3, 9, 9, 100, RELATION_LIMIT))
    places = random.sample(entries, min(len(entries), random.choice((1, 2, len(entries)))))
    made = {(random.choice(places), *((6, 7) if random.random() < liked else sorted(random.sample(range(1, 16), 2))), 0)
            for _ in range(count)}
    return with_relations(image, sorted(made))


def relation_edit(random, image):
    """A relation left out, put in twice, put elsewhere, of another bundle, of other predicates or of the same ones the
    other way round, or with last bytes that aren't zero."""
    layout = Layout(image)
    relations = [list(relation) for relation in layout.relations_of(image)]
    if not relations:
        return image
    at, kind = random.randrange(len(relations)), random.randrange(7)
    own = relations.pop(at)
    if kind == 1:
        relations.insert(at, own)
    elif kind == 2:
        at = random.randrange(len(relations) + 1)
    elif kind == 3:
        own[0] = random.choice((0, (own[0] + 1) % 2**32, random.randrange(layout.bundles), layout.bundles, 2**32 - 1))
    elif kind == 4:
        own[random.randrange(1, 3)] = random.choice((0, 1, 15, 16, 63, 255))
    elif kind == 5:
        own[1:3] = own[2], own[1]
    elif kind == 6:
        own[3] = 1 << random.randrange(16)
    if kind:
        relations.insert(at, own)
    return with_relations(image, relations)


def bundle_edit(random, image):
    """A bundle with another stop, another template or another word, or exchanged with another; or no stops
    at all after the last slots."""
    layout = Layout(image)
    return image[:layout.code] + code_edit(random, layout.code_of(image)) + image[layout.end:]


def code_edit(random, code):
    bundles = [code[at:at + 16] for at in range(0, len(code), 16)]
    if len(bundles[-1]) < 16:
        return code
    a, b, kind = random.randrange(len(bundles)), random.randrange(len(bundles)), random.randrange(9)
    template, words = split(bundles[a])
    if kind < 3:
        bundles[a] = join(template ^ 1, words)
    elif kind == 3:
        bundles[a] = join(random.randrange(32), words)
    elif kind == 4:
        bundles = [bytes([bundle[0] & 0xFE]) + bundle[1:] for bundle in bundles]
    elif kind < 7:
        bundles[a], bundles[b] = bundles[b], bundles[a]
    else:
        bundles[a] = swept_bundle(random, words)
    return b"".join(bundles)


def swept_bundle(random, words):
    """A bundle with these words but for one, which has the fields of a row of codes and one drawn code."""
    its_units, fixed, (low, width), _ = random.choice(SWEEPS)
    unit = random.choice(its_units)
    template, slot = random.choice(PLACES[unit])
    words[word_index(template, slot)] = swept_word(random, unit, {**fixed, low: random.randrange(1 << width)}, low)
    return join(template, words)


def one_byte_more(random, data):
    return data + random_bytes(random, 1)


IMAGE_EDITS = (head_edit, version_edit, *[part_edit] * 6, *[relation_edit] * 4, *[bundle_edit] * 10, cut, one_byte_more)
CODE_EDITS = (*[code_edit] * 8, *[flip] * 4, drop, double, cut)


def is_whole(data):
    """Whether bytes have the parts of an image, so that these can be edited."""
    return len(data) > HEAD and data.startswith(MAGICS) and len(data) >= Layout(data).end > Layout(data).code


def damaged(random, data, edits):
    """The bytes after a few edits. Those of images are made where there is one still."""
    for _ in range(random.choice((1, 1, 1, 2, 3))):
        edit = random.choice(edits if edits is not IMAGE_EDITS or is_whole(data) else BYTE_EDITS)
        data = edit(random, data) if data else data
    return data


def random_bytes(random, most):
    count = random.randrange(1, most + 1)
    return random.getrandbits(8 * count).to_bytes(count, "little")
