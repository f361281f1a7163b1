#!/usr/bin/env python3
"""Writes crates/bench/stdin and crates/bench/stdout: the cases of the host's test program for Bench, and what it must print.

The model below is written from document 01 ("Packet layout", questions 7 to 9, "The table of states") and from document 02's a), d) and e),
and shares no code with the crates. Run from the repository's root; both files are committed, so nothing needs this script to pass.
"""
import itertools
import random
import re

G = bytes.fromhex("0279BE667EF9DCBBAC55A06295CE870B07029BFCDB2DCE28D959F2815B16F81798")
STORE = bytes((7 * i + i // 251) % 256 for i in range(52224))


def le(n, x):
    return x.to_bytes(n, "little")


def packet(kind, parts, type_=0, signer=0, ids=(0, 0, 0), pairs=None, head=None):
    at = 32 + 8 * len(parts)
    table = b""
    for p in parts:
        table += le(4, at) + le(4, len(p))
        at += len(p)
    header = le(1, kind) + le(1, type_) + le(2, len(parts) if pairs is None else pairs) + le(4, signer) + b"".join(le(8, i) for i in ids)
    return header + table + b"".join(parts)


def response(signer=1, ids=(1, 2, 3), message=b"hello", keys=(2, 3), nonces=None):
    nonces = [bytes([2] + [i + 1] * 32) + bytes([3] + [i + 1] * 32) for i in range(len(keys))] if nonces is None else nonces
    return packet(2, [message, b"".join(le(4, k) for k in keys), b"".join(nonces)], 0, signer, ids)


def share(i, keys, z=None):
    return le(4, i) + (bytes([i % 256] * 32) if z is None else z) + b"".join(le(4, k) for k in keys)


# --- the reader

def num(s, at, n):
    return int.from_bytes(s[at:at + n], "little")


def fields(s):
    return dict(kind=num(s, 0, 1), type=num(s, 1, 1), pairs=num(s, 2, 2), signer=num(s, 4, 4), ids=(num(s, 8, 8), num(s, 16, 8), num(s, 24, 8)))


LACKS = {1: ["signer"], 2: ["type"], 3: ["signer"], 4: ["type"], 5: ["signer", "type", "sign"], 6: ["type", "sign"], 7: ["signer", "type", "sign"]}


def laid_out(s, nested=False):
    """The parts, or None."""
    if len(s) < 32:
        return None
    h = fields(s)
    if h["kind"] not in LACKS or (nested and h["kind"] != 2):
        return None
    for f in LACKS[h["kind"]]:
        if (f == "sign" and (h["ids"][1] or h["ids"][2])) or (f != "sign" and h[f]):
            return None
    n = h["pairs"]
    if h["type"] > 3 or not {1: n == 2, 2: n == 3, 3: n >= 2, 4: True}.get(h["kind"], n == 0) or len(s) < 32 + 8 * n:
        return None
    at, parts = 32 + 8 * n, []
    for i in range(n):
        off, size = num(s, 32 + 8 * i, 4), num(s, 36 + 8 * i, 4)
        if off != at or at + size > len(s):
            return None
        parts.append(s[at:at + size])
        at += size
    if at != len(s):
        return None
    k = h["kind"]
    if k in (1, 3) and len(parts[1]) != (32 if h["type"] == 3 else 0):
        return None
    if k == 2 and (len(parts[1]) % 4 or len(parts[2]) % 66):
        return None
    if k == 3 and any(laid_out(p, True) is None for p in parts[2:]):
        return None
    if k == 4 and any(len(p) < 36 or (len(p) - 36) % 4 for p in parts):
        return None
    return parts


def within(s, parts):
    k = fields(s)["kind"]
    if k in (1, 3) and len(parts[0]) > 256:
        return False
    if k == 2:
        return len(parts[0]) <= 256 and len(parts[1]) <= 64 and len(parts[2]) <= 16 * 66
    if k == 3:
        return len(parts) <= 12 and all(within(p, laid_out(p, True)) for p in parts[2:])
    if k == 4:
        return len(parts) <= 16 and sum((len(p) - 36) // 4 for p in parts) <= 16
    return True


def ids_text(s):
    return " {" + "".join(" %d" % num(s, i, 4) for i in range(0, len(s) - 3, 4)) + " }"


def valid(nonces):
    whole = len(nonces) // 66 * 66
    return all(nonces[i:i + 33] not in (bytes(33), G) for i in range(0, whole, 33))


def response_text(parts):
    return "; message %d, key ids%s, nonces %d %s" % (len(parts[0]), ids_text(parts[1]), len(parts[2]) // 66, "valid" if valid(parts[2]) else "not valid")


def checksum(s):
    h = 0
    for b in s:
        h = (h * 31 + b) % 2 ** 32
    return "%08x" % h


def read(s):
    parts = laid_out(s)
    if parts is None:
        return "refused 8"
    if not within(s, parts):
        return "refused 9"
    h = fields(s)
    t = "kind %d, type %d, signer %d, ids %d %d %d, pairs %d" % (h["kind"], h["type"], h["signer"], *h["ids"], h["pairs"])
    if h["kind"] in (1, 3):
        t += "; message %d, root %d" % (len(parts[0]), len(parts[1]))
    if h["kind"] == 2:
        t += response_text(parts)
    if h["kind"] == 3:
        for p in parts[2:]:
            g = fields(p)
            t += "\n  response of %d, sign id %d%s" % (g["signer"], g["ids"][1], response_text(laid_out(p, True)))
    if h["kind"] == 4:
        for p in parts:
            t += "\n  share %d, z_i %s, key ids%s" % (num(p, 0, 4), checksum(p[4:36]), ids_text(p[36:]))
    return t


# --- the script

script, expected = [], []


def tokens(s):
    """Bytes as tokens; runs of one byte are written once."""
    out, i = [], 0
    while i < len(s):
        j = i
        while j < len(s) and s[j] == s[i]:
            j += 1
        out.append("%d*%02x" % (j - i, s[i]) if j - i > 3 else " ".join(["%02x" % s[i]] * (j - i)))
        i = j
    return " ".join(out)


def case(letter, label, args, answer):
    script.append("%s %s | %s" % (letter, label, args))
    expected.append("%s: %s" % (label, answer))


def r(label, s):
    case("R", label, tokens(s), read(s))


def assemble(text):
    """The bytes that tokens say, or the first fault in them."""
    out, fault = b"", None
    for token in text.split():
        n, data, why = 1, b"", None
        m = re.fullmatch(r"([0-9]+):([0-9]+)|(?:([0-9]+)\*)?([0-9a-f]+)", token)
        if not m:
            why = "a token is no byte and no number"
        elif m[1]:
            n, x = int(m[1]), int(m[2])
            why = "a number does not fit its bytes" if not 1 <= n <= 8 or x >= 256 ** n else None
            data = b"" if why else le(n, x)
        else:
            n = int(m[3] or 1)
            why = "a number does not fit its bytes" if n >= 2 ** 64 or len(m[4]) > 2 else None
            data = b"" if why or n > 32768 else bytes([int(m[4], 16)]) * n
        if not why and len(out) + n > 32768:
            why = "the case is longer than 32768 bytes"
        fault = fault or why
        out += b"" if why else data
    return fault or out


def told(label, text):
    """A case of hand-written tokens: read as a packet, or not run."""
    s = assemble(text)
    case("R", label, text, "not run: " + s if isinstance(s, str) else read(s))


def line(text, answer):
    script.append(text)
    expected.append(answer)


def wrote(data, lent, refusal):
    after = data + bytes([0xaa] * (lent - len(data))) if refusal is None else bytes([0xaa] * lent)
    if refusal is not None:
        return "refused %d, %s" % (refusal, checksum(after))
    return "%d bytes, %s%s" % (len(data), checksum(after), "\n  " + read(data) if data[0] < 8 else "")


def asked(lent, fine):
    return 7 if lent < 19232 else None if fine else 9


def root(t):
    return bytes([0x17] * 32) if t == 3 else b""


def w_request(label, t, size, lent=19232):
    data = packet(1, [STORE[:size], root(t)], t, 0, (1, 2, 3))
    case("N", label, "%02x 2:%d 2:%d" % (t, lent, size), wrote(data, min(lent, 19240), asked(lent, size <= 256)))


def place(i):
    return 256 + 1120 * i


def w_share_request(label, t, size, count, keys, nonces, lent=19232):
    nested = [packet(2, [STORE[:size], STORE[place(i):place(i) + 4 * keys], STORE[place(i) + 64:place(i) + 64 + 66 * nonces]], 0, i, (1, 2 + i, 3)) for i in range(min(count, 10))]
    data = packet(3, [STORE[:size], root(t)] + nested, t, 0, (1, 2, 3))
    fine = size <= 256 and count <= 10 and (count == 0 or (keys <= 16 and nonces <= 16))
    case("S", label, "%02x 2:%d 2:%d 2:%d 2:%d 2:%d" % (t, lent, size, count, keys, nonces), wrote(data, min(lent, 19240), asked(lent, fine)))


def w_job(label, t, size, count, lists, shares, share_keys, lent=19232):
    keys = b"".join(STORE[place(i):place(i) + 4 * lists] for i in range(min(count, 10)))
    nonces = b"".join(STORE[place(i) + 64:place(i) + 64 + 66 * lists] for i in range(min(count, 10)))
    parts = []
    for i in range(min(count, 10)):
        base = 45824 + 640 * i
        for j in range(shares):
            k = base + 576 + 4 * j * share_keys
            parts.append(STORE[base + 36 * j:base + 36 * j + 36] + STORE[k:k + 4 * share_keys])
    data = packet(32, [STORE[:size], root(t), keys, nonces] + parts, t, 0, (1, 2, 3))
    fine = size <= 256 and count <= 10 and (count == 0 or (lists <= 16 and shares <= 16 and shares * share_keys <= 16))
    case("J", label, "%02x 2:%d 2:%d 2:%d 2:%d 2:%d %02x" % (t, lent, size, count, lists, shares, share_keys), wrote(data, min(lent, 19240), asked(lent, fine)))


def signer_ids(n):
    return b"".join(le(4, 3 * i) for i in range(min(n, 10)))


def w_timeout(label, waiters, malicious, lent=19232):
    data = packet(33, [signer_ids(waiters), signer_ids(malicious)])
    case("T", label, "00 2:%d 2:%d 2:%d" % (lent, waiters, malicious), wrote(data, min(lent, 19240), asked(lent, max(waiters, malicious) <= 10)))


def w_insufficient(label, malicious, lent=19232):
    case("I", label, "00 2:%d 2:%d" % (lent, malicious), wrote(packet(34, [signer_ids(malicious)]), min(lent, 19240), asked(lent, malicious <= 10)))


def w_arrivals(label, arrivals, lent=19232):
    """Kind 35 (02, e): the signers' ids, four bytes each, then when each answered, eight bytes each."""
    data = packet(35, [b"".join(le(4, i) for i, _ in arrivals), b"".join(le(8, clock) for _, clock in arrivals)])
    each = "".join(" 4:%d 8:%d" % a for a in arrivals[:10])
    case("A", label, "00 2:%d 2:%d%s" % (lent, len(arrivals), each), wrote(data, min(lent, 19240), asked(lent, len(arrivals) <= 10)))


def some_arrivals(n):
    """n signers, not in order, each reading of eight bytes of its own."""
    return [(0x04030201 * (7 * i % 16), int.from_bytes(bytes(range(8 * i + 1, 8 * i + 9)), "little")) for i in range(n)]


def w_dkg(label, kind, dkg, signer=0, lent=19232):
    data = packet(kind, [], 0, signer, (dkg, 0, 0))
    case(str(kind), label, "00 2:%d 2:%d 2:%d" % (lent, dkg, signer), wrote(data, min(lent, 19240), asked(lent, True)))


# --- what a signer sends (02, a): 9 is asked, then 26; 7 is not

def lent_to(data, lent):
    """data: the packet, or None where 9 refuses."""
    return wrote(data or b"", lent, 9 if data is None else 26 if lent < len(data) else None)


def head_text(lent, signer, ids, lengths):
    return " ".join(["2:%d 4:%d 8:%d 8:%d 8:%d" % (lent, signer, *ids)] + ["2:%d" % n for n in lengths])


def numbers(*lists):
    return b"".join(le(4, x) for xs in lists for x in xs)


def nonce_response(message, keys, nonces, signer, ids):
    if len(message) > 256 or len(keys) > 16 or len(nonces) % 66 or len(nonces) > 16 * 66:
        return None
    return packet(2, [message, numbers(keys), nonces], 0, signer, ids)


def share_response(share_ids, z, counts, keys, signer, ids):
    if len(share_ids) > 16 or len(keys) > 16 or len(z) != 32 * len(share_ids) or len(counts) != len(share_ids) or sum(counts) != len(keys):
        return None
    left = list(keys)
    parts = [share(i, [left.pop(0) for _ in range(n)], z[32 * j:32 * j + 32]) for j, (i, n) in enumerate(zip(share_ids, counts))]
    return packet(4, parts, 0, signer, ids)


# a signer and the three ids: usual ones, ones of which every byte differs, the largest
ONE = (1, (1, 2, 3))
EVERY = (0x04030201, (0x1817161514131211, 0x2827262524232221, 0x4847464544434241))
LARGEST = (2 ** 32 - 1, (2 ** 64 - 1,) * 3)


def w_nonces(label, message, keys, nonces, lent=1500, head=ONE, gives=""):
    """gives: how the answer starts by the paper, where that is worked out by hand."""
    answer = lent_to(nonce_response(message, keys, nonces, *head), lent)
    assert answer.startswith(gives), (label, answer)
    case("2", label, head_text(lent, *head, (len(message), len(keys), len(nonces))) + " " + tokens(message + numbers(keys) + nonces), answer)


def w_shares(label, share_ids, z, counts, keys, lent=900, head=ONE, gives=""):
    answer = lent_to(share_response(share_ids, z, counts, keys, *head), lent)
    assert answer.startswith(gives), (label, answer)
    lengths = (len(share_ids), len(z), len(counts), len(keys))
    case("4", label, head_text(lent, *head, lengths) + " " + tokens(numbers(share_ids) + z + numbers(counts, keys)), answer)


def some_nonces(n, first=1):
    """n nonces, each of its own bytes."""
    return b"".join(bytes([2] + [i % 256] * 32 + [3] + [(i + 100) % 256] * 32) for i in range(first, first + n))


def some_z(n, first=1):
    return b"".join(bytes([i % 256] * 31 + [(i + 7) % 256]) for i in range(first, first + n))


def nonce_cases():
    a, two = b"a", some_nonces(2)
    for n, gives in ((197, "197 bytes"), (196, "refused 26"), (198, "197 bytes"), (31, "refused 26"), (0, "refused 26"), (19240, "197 bytes")):
        w_nonces("nonces of 2 and 3 into %d" % n, a, (2, 3), two, n, gives=gives)
    w_nonces("nonces: message of 257, nothing lent: 9 before 26", bytes(257), (), b"", 0, gives="refused 9")
    w_nonces("nonces: message of 256, nothing lent", bytes(256), (), b"", 0, gives="refused 26")
    w_nonces("nonces: a ragged nonce, nothing lent: 9 before 26", a, (2,), bytes(65), 0, gives="refused 9")
    w_nonces("nonces: 17 nonces, nothing lent: 9 before 26", a, (2,), some_nonces(17), 0, gives="refused 9")
    w_nonces("nonces: 17 key ids, one byte too few lent: 9 before 26", a, tuple(range(17)), two, 56 + 1 + 68 + 131, gives="refused 9")
    for n in (1431, 1432, 1433):
        w_nonces("largest nonces into %d" % n, bytes(range(256)), tuple(range(100, 116)), some_nonces(16), n, gives="refused 26" if n == 1431 else "1432 bytes")
    for n in (255, 256, 257):
        w_nonces("nonces: message of %d" % n, bytes([n % 251] * n), (2, 3), two)
    for n in (15, 16, 17, 18, 40):
        w_nonces("nonces: %d key ids" % n, a, tuple(range(n)), b"")
        w_nonces("nonces: %d nonces" % n, a, (2,), some_nonces(n))
    for n in (1, 22, 33, 44, 60, 64, 65, 67, 68, 131, 133, 1055, 1057, 1121, 1123):
        w_nonces("nonces of %d bytes" % n, a, (2, 3), bytes([2] * n))
    for n in (55, 56, 57):
        w_nonces("nonces: empty lists into %d" % n, b"", (), b"", n)
    w_nonces("nonces: no message", b"", (2, 3), two)
    w_nonces("nonces: a message alone", b"abc", (), b"")
    w_nonces("nonces: keys alone", b"", (7, 8, 9), b"")
    w_nonces("nonces: nonces alone", b"", (), some_nonces(3))
    w_nonces("nonces: more than the keys", a, (2,), some_nonces(5))
    w_nonces("nonces: fewer than the keys", a, (2, 3, 4, 5), some_nonces(1))
    w_nonces("nonces: repeats", a, (3, 2, 3, 3), two[:66] * 4)
    w_nonces("nonces: identity and generator are not looked at", a, (2, 3), bytes(66) + G + G)
    w_nonces("nonces: no key is looked at", a, (0, 2 ** 32 - 1), two)
    w_nonces("nonces: bytes of every number", bytes(range(255, -1, -1)), (0x31323334, 0x35363738), bytes(range(100, 232)), head=EVERY)
    w_nonces("nonces: largest numbers", b"\xff", (2 ** 32 - 1,) * 2, bytes([255] * 66), head=LARGEST)
    w_nonces("nonces: numbers of 0", a, (0,), some_nonces(1), head=(0, (0, 0, 0)))


def share_cases():
    for n, gives in ((84, "84 bytes"), (83, "refused 26"), (85, "84 bytes"), (32, "refused 26"), (0, "refused 26"), (19240, "84 bytes")):
        w_shares("a share of 2 and 3 into %d" % n, (1,), some_z(1), (2,), (2, 3), n, gives=gives)
    for n, gives in ((32, "32 bytes"), (31, "refused 26"), (33, "32 bytes"), (0, "refused 26")):
        w_shares("no shares into %d" % n, (), b"", (), (), n, gives=gives)
    for n in (799, 800, 801):
        w_shares("largest shares into %d" % n, tuple(range(50, 66)), some_z(16), (1,) * 16, tuple(range(100, 116)), n, gives="refused 26" if n == 799 else "800 bytes")
    w_shares("shares: 16 with all keys in the third", tuple(range(16)), some_z(16), (0, 0, 16) + (0,) * 13, tuple(range(16)), 800, gives="800 bytes")
    for n in (15, 16, 17, 18, 40):
        w_shares("%d shares without keys" % n, tuple(range(n)), some_z(n), (0,) * n, ())
        w_shares("%d shares, a key each" % n, tuple(range(n)), some_z(n), (1,) * n, tuple(range(n)))
        w_shares("a share of %d keys" % n, (1,), some_z(1), (n,), tuple(range(n)))
        w_shares("%d keys over two shares" % n, (1, 2), some_z(2), (8, n - 8), tuple(range(n)))
    two, z = (1, 2), some_z(2)
    good = dict(share_ids=two, z=z, counts=(1, 2), keys=(5, 6, 7))
    ragged = {
        "z_i a byte short": dict(z=z[:-1]), "z_i a byte long": dict(z=z + b"\1"), "z_i of one share": dict(z=z[:32]), "z_i of three": dict(z=some_z(3)), "no z_i": dict(z=b""),
        "a share id too few": dict(share_ids=(1,)), "a share id too many": dict(share_ids=(1, 2, 3)), "no share ids": dict(share_ids=()),
        "a count too few": dict(counts=(1,)), "a count too few, all keys": dict(counts=(3,)), "a count too many": dict(counts=(1, 2, 1)), "a count of 0 too many": dict(counts=(1, 2, 0)), "no counts": dict(counts=()),
        "counts above the keys": dict(counts=(1, 3)), "counts below the keys": dict(counts=(1, 1)), "counts of 0": dict(counts=(0, 0)), "no keys": dict(keys=()),
        "a key too few": dict(keys=(5, 6)), "a key too many": dict(keys=(5, 6, 7, 8)),
        "a count of 2^32 - 1": dict(counts=(2 ** 32 - 1, 3)), "counts that wrap to the keys": dict(counts=(2 ** 32 - 1, 4)), "counts that wrap to the keys, last": dict(counts=(4, 2 ** 32 - 1)),
        "counts that wrap to 0": dict(counts=(2 ** 31, 2 ** 31), keys=()), "counts whose bytes wrap": dict(counts=(2 ** 30, 3)),
    }
    for label, other in ragged.items():
        w_shares("shares: %s" % label, **{**good, **other}, gives="refused 9")
        w_shares("shares: %s, nothing lent: 9 before 26" % label, **{**good, **other}, lent=0, gives="refused 9")
    w_shares("shares: 16 counts of 2^32 - 1", tuple(range(16)), some_z(16), (2 ** 32 - 1,) * 16, (), gives="refused 9")
    w_shares("shares: 40 counts of 2^32 - 1 for one share", (1,), some_z(1), (2 ** 32 - 1,) * 40, (1,), gives="refused 9")
    w_shares("no shares: a count", (), b"", (0,), (), gives="refused 9")
    w_shares("no shares: a key", (), b"", (), (1,), gives="refused 9")
    w_shares("no shares: a z_i", (), some_z(1), (), (), gives="refused 9")
    w_shares("17 shares, nothing lent: 9 before 26", tuple(range(17)), some_z(17), (0,) * 17, (), 0, gives="refused 9")
    w_shares("17 keys, nothing lent: 9 before 26", (1,), some_z(1), (17,), tuple(range(17)), 0, gives="refused 9")
    w_shares("16 of each, nothing lent", tuple(range(16)), some_z(16), (1,) * 16, tuple(range(16)), 0, gives="refused 26")
    w_shares("shares: some without keys", (9, 8, 7, 6), some_z(4), (0, 2, 0, 1), (5, 6, 7))
    w_shares("shares: repeats", (4, 4, 4), some_z(1) * 3, (2, 1, 1), (3, 3, 3, 3))
    w_shares("shares: z_i of 0", (0,), bytes(32), (1,), (0,))
    w_shares("shares: bytes of every number", (0x51525354, 0x55565758), bytes(range(150, 214)), (1, 2), (0x31323334, 0x35363738, 0x393a3b3c), head=EVERY)
    w_shares("shares: largest numbers", (2 ** 32 - 1,), bytes([255] * 32), (2,), (2 ** 32 - 1,) * 2, head=LARGEST)
    w_shares("shares: numbers of 0", (0,), some_z(1), (1,), (0,), head=(0, (0, 0, 0)))


def not_as_said():
    """Cases whose lists the program has no room for, or whose bytes are not as many as their lengths say."""
    def not_run(lengths, size, why):
        label = "lists of " + ", ".join("%d" % n for n in lengths) + " in %d bytes" % size
        case("2" if len(lengths) == 3 else "4", label, head_text(100, *ONE, lengths) + " %d*00" % size, "not run: " + why)
    for lengths in ((0, 41, 0), (41, 0, 0, 0), (0, 0, 41, 0), (0, 0, 0, 41)):
        not_run(lengths, 164, "no list of numbers is longer than 40")
    for lengths, sizes in (((1, 1, 66), (0, 70, 72)), ((1, 32, 1, 1), (0, 43, 45)), ((65535, 40, 65535), (0, 30000)), ((40, 65535, 40, 40), (0, 30000))):
        for size in sizes:
            not_run(lengths, size, "the lists are not as long as the case says")


def drawn_head(r):
    return r.getrandbits(32), tuple(r.getrandbits(r.choice((8, 32, 64))) for _ in range(3))


def drawn_room(r, data, most):
    """A buffer around the packet's length; of any length where 9 refuses."""
    return r.randrange(most) if data is None else max(0, len(data) + r.choice((-8, -2, -1, -1, 0, 0, 0, 1, 1, 2, 8, 100)))


def drawn_nonces(r, label):
    n, head = r.choice((0, 1, 2, 3, 5, 8, 15, 16, 17)), drawn_head(r)
    message = r.randbytes(r.choice((0, 1, 2, 3, 5, 32, 33))) + bytes([r.randrange(256)] * r.choice((0, 0, 0, 0, 0, 200, 223, 224)))
    keys = [r.getrandbits(r.choice((3, 32))) for _ in range(r.choice((n, n, n, 0, 1, 16)))]
    nonces = (r.randbytes(66 * n) if n < 3 else some_nonces(n, r.randrange(256))) + bytes([9] * r.choice((0,) * 20 + (1, 65)))
    w_nonces(label, message, keys, nonces, drawn_room(r, nonce_response(message, keys, nonces, *head), 1440), head)


def drawn_shares(r, label):
    n = r.choice((0, 1, 1, 2, 3, 4, 5, 8, 15, 16, 17))
    counts = [r.choice((0, 1, 1, 2, 3)) if n < 8 else r.choice((0, 1, 1)) for _ in range(n)]
    keys = [r.getrandbits(r.choice((3, 32))) for _ in range(max(0, sum(counts) + r.choice((0,) * 20 + (-1, 1))))]
    counts += [0] * r.choice((0,) * 15 + (1,))
    z = (r.randbytes(32 * n) if n < 4 else some_z(n, r.randrange(256))) + bytes([9] * r.choice((0,) * 20 + (1, 32)))
    share_ids, head = [r.getrandbits(r.choice((3, 32))) for _ in range(n)], drawn_head(r)
    w_shares(label, share_ids, z, counts, keys, drawn_room(r, share_response(share_ids, z, counts, keys, *head), 810), head)


STATES = ["Idle", "DkgPublicDistribute", "DkgPublicGather", "DkgPublicSharesDoneDistribute", "DkgPublicSharesDoneGather", "DkgPrivateDistribute", "DkgPrivateGather", "DkgPrivateSharesDoneDistribute", "DkgPrivateSharesDoneGather", "DkgEndDistribute", "DkgEndGather", "NonceRequest", "NonceGather", "SigShareRequest", "SigShareGather"]


def may_move(prev, ptype, proot, nxt, ntype, nroot):
    """fire.rs, can_move_to, target by target."""
    same = ptype == ntype and (ptype != 3 or proot == nroot)
    is_ = lambda *names: prev in names
    return {
        "Idle": True,
        "DkgPublicDistribute": is_("Idle"),
        "DkgPublicGather": is_("DkgPublicDistribute", "DkgPublicGather"),
        "DkgPublicSharesDoneDistribute": is_("DkgPublicGather"),
        "DkgPublicSharesDoneGather": is_("DkgPublicSharesDoneDistribute", "DkgPublicSharesDoneGather"),
        "DkgPrivateDistribute": is_("DkgPublicSharesDoneGather"),
        "DkgPrivateGather": is_("DkgPrivateDistribute", "DkgPrivateGather"),
        "DkgPrivateSharesDoneDistribute": is_("DkgPrivateGather"),
        "DkgPrivateSharesDoneGather": is_("DkgPrivateSharesDoneDistribute", "DkgPrivateSharesDoneGather"),
        "DkgEndDistribute": is_("DkgPrivateSharesDoneGather"),
        "DkgEndGather": is_("DkgEndDistribute"),
        "NonceRequest": is_("Idle", "DkgEndGather") or (is_("SigShareGather") and same),
        "NonceGather": is_("NonceRequest", "NonceGather") and same,
        "SigShareRequest": is_("NonceGather") and same,
        "SigShareGather": is_("SigShareRequest", "SigShareGather") and same,
    }[nxt]


def move(prev, nxt, ptype=0, ntype=0, proot=0, nroot=0, label=None):
    case("M", label or "%s to %s" % (prev, nxt), "%02x %02x %02x %02x %02x %02x" % (STATES.index(prev), ptype, proot, STATES.index(nxt), ntype, nroot), "yes" if may_move(prev, ptype, proot, nxt, ntype, nroot) else "no")


def keys(label, list_, set_):
    told = "yes" if set(list_[:16]) == set(set_[:16]) else "no"
    repeats = sum(1 for i, k in enumerate(list_[:16]) if k in list_[:i])
    case("K", label, "%02x " % (4 * len(list_)) + " ".join("4:%d" % k for k in list_ + set_), "%s, repeats %d" % (told, repeats))


def main():
    hello = b"hello"
    # every kind written and read back, the others read from bytes
    for t in range(4):
        w_request("nonce request of type %d" % t, t, 5)
    w_share_request("share request, two responses", 3, 5, 2, 3, 2)
    w_share_request("share request, none nested", 0, 0, 0, 0, 0)
    w_job("job, two signers", 3, 5, 2, 3, 2, 1)
    w_job("job, nobody", 0, 0, 0, 0, 0, 0)
    w_timeout("nonce timeout", 2, 1)
    w_insufficient("insufficient signers", 3)
    w_arrivals("arrivals", [(0, 103), (2, 101)])
    w_arrivals("arrivals, nobody's", [])
    w_arrivals("arrivals, largest numbers", [(2 ** 32 - 1, 2 ** 64 - 1)] * 2)
    w_dkg("DkgBegin", 5, 7)
    w_dkg("key generation, a signer's", 6, 7, 4)
    w_dkg("key generation, the coordinator's", 7, 7)
    r("nonce response", response())
    r("share response", packet(4, [share(1, [2]), share(2, [3, 4])], 0, 1, (1, 2, 3)))
    r("share response, largest ids", packet(4, [share(2 ** 32 - 1, [2 ** 32 - 1])], 0, 2 ** 32 - 1, (2 ** 64 - 1,) * 3))
    # what is taken
    r("taken: an empty message", packet(1, [b"", b""]))
    r("taken: kind 3 with no response", packet(3, [hello, b""], 0, 0, (1, 2, 3)))
    r("taken: nested ids, messages and signers of their own, repeated", packet(3, [hello, b"", response(ids=(9, 8, 7), message=b"other"), response(ids=(9, 8, 7), message=b"other"), response(signer=5)], 1, 0, (1, 2, 3)))
    r("taken: kind 4 with no share", packet(4, [], 0, 1, (1, 2, 3)))
    r("taken: kind 4, a share of no key", packet(4, [share(1, [])], 0, 1, (1, 2, 3)))
    r("taken: no key, no nonce", response(keys=()))
    r("taken: more nonces than keys", response(keys=(2,), nonces=[bytes([2] * 66)] * 3))
    # limits, at and one past
    w_request("message of 256, written", 0, 256)
    w_request("message of 257, written", 0, 257)
    r("message of 256", packet(1, [bytes(256), b""]))
    r("message of 257", packet(1, [bytes(257), b""]))
    r("response's message of 256", response(message=bytes(256)))
    r("response's message of 257", response(message=bytes(257)))
    r("nested message of 256", packet(3, [hello, b"", response(message=bytes(256))]))
    r("nested message of 257", packet(3, [hello, b"", response(message=bytes(257))]))
    r("kind 3, message of 257", packet(3, [bytes(257), b""]))
    w_share_request("share request, message of 256", 0, 256, 1, 1, 1)
    w_share_request("share request, message of 257", 0, 257, 1, 1, 1)
    for n in (16, 17):
        r("%d key ids" % n, response(keys=tuple(range(n)), nonces=[]))
        r("%d nonces" % n, response(keys=(1,), nonces=[bytes([2] * 66)] * n))
        r("%d nested key ids" % n, packet(3, [hello, b"", response(keys=tuple(range(n)), nonces=[])]))
        r("%d nested nonces" % n, packet(3, [hello, b"", response(keys=(1,), nonces=[bytes([2] * 66)] * n)]))
        r("%d shares" % n, packet(4, [share(i, []) for i in range(n)]))
        r("%d key ids over two shares" % n, packet(4, [share(1, list(range(8))), share(2, list(range(n - 8)))]))
        w_share_request("share request, %d key ids" % n, 0, 5, 2, n, 1)
        w_share_request("share request, %d nonces" % n, 0, 5, 2, 1, n)
        w_job("job, lists of %d" % n, 0, 5, 2, n, 1, 1)
        w_job("job, %d shares" % n, 0, 5, 2, 1, n, 1)
    w_job("job, a share of 17 key ids", 0, 5, 2, 1, 1, 17)
    for n in (10, 11):
        r("%d nested responses" % n, packet(3, [hello, b""] + [response(signer=i, message=b"", keys=()) for i in range(n)]))
        w_share_request("share request, %d responses" % n, 0, 5, n, 1, 1)
        w_job("job, %d signers" % n, 0, 5, n, 1, 1, 1)
        w_timeout("nonce timeout, %d waiters" % n, n, 1)
        w_timeout("nonce timeout, %d malicious" % n, 1, n)
        w_insufficient("insufficient signers, %d" % n, n)
        w_arrivals("arrivals, %d" % n, some_arrivals(n))
    w_share_request("largest share request", 3, 256, 10, 16, 16)
    w_job("largest job: the whole answer buffer", 3, 256, 10, 16, 16, 1)
    w_job("largest job, eight bytes more lent", 3, 256, 10, 16, 16, 1, 19240)
    for n in (19232, 19231):
        w_request("nonce request, buffer of %d" % n, 0, 5, n)
        w_share_request("share request, buffer of %d" % n, 0, 5, 1, 1, 1, n)
        w_job("job, buffer of %d" % n, 0, 5, 1, 1, 1, 1, n)
        w_timeout("nonce timeout, buffer of %d" % n, 1, 1, n)
        w_insufficient("insufficient signers, buffer of %d" % n, 1, n)
        w_arrivals("arrivals, buffer of %d" % n, some_arrivals(3), n)
        for k in (5, 6, 7):
            w_dkg("kind %d, buffer of %d" % (k, n), k, 7, 0, n)
    w_request("7 before 9", 0, 257, 0)
    # what a signer sends
    nonce_cases()
    share_cases()
    drawn = random.Random(2)
    for i in range(40):
        drawn_nonces(drawn, "nonces drawn at random, %d" % i)
        drawn_shares(drawn, "shares drawn at random, %d" % i)
    # damaged packets
    r("nothing at all", b"")
    r("31 bytes", packet(5, [], ids=(7, 0, 0))[:31])
    r("33 bytes, no pairs", packet(5, [], ids=(7, 0, 0)) + b"\0")
    for k in (0, 8, 32, 33, 34, 35, 255):
        r("kind %d" % k, packet(k, []))
    good = {1: packet(1, [hello, b""], 0, 0, (1, 2, 3)), 2: response(), 3: packet(3, [hello, b"", response()], 0, 0, (1, 2, 3)), 4: packet(4, [share(1, [2])], 0, 1, (1, 2, 3)), 5: packet(5, [], ids=(7, 0, 0)), 6: packet(6, [], signer=4, ids=(7, 0, 0)), 7: packet(7, [], ids=(7, 0, 0))}
    for k, s in good.items():
        for name, at in (("type", 1), ("signer", 4), ("sign id", 16), ("iteration", 24)):
            if s[at] == 0:
                r("kind %d, %s 1" % (k, name), s[:at] + b"\1" + s[at + 1:])
        r("kind %d, a pair less than named" % k, s[:2] + le(2, num(s, 2, 2) + 1) + s[4:])
        r("kind %d, a pair more than named" % k, s[:2] + le(2, max(num(s, 2, 2) - 1, 0)) + s[4:])
        r("kind %d, 65535 pairs" % k, s[:2] + le(2, 65535) + s[4:])
    r("kind 1, three pairs", packet(1, [hello, b"", b""]))
    r("kind 2, two pairs", packet(2, [hello, b""]))
    r("kind 3, one pair", packet(3, [hello]))
    r("kind 5, one pair", packet(5, [b""], ids=(7, 0, 0)))
    r("type 4", packet(1, [hello, bytes(32)], 4))
    r("type 3, root of 31 bytes", packet(1, [hello, bytes(31)], 3))
    r("type 3, no root", packet(1, [hello, b""], 3))
    r("type 2, root of 32 bytes", packet(1, [hello, bytes(32)], 2))
    r("kind 3, type 3, root of 31 bytes", packet(3, [hello, bytes(31)], 3))
    s = good[1]
    r("first part one byte late", s[:32] + le(4, 49) + s[36:])
    r("first part one byte early", s[:32] + le(4, 47) + s[36:])
    r("a gap", s[:40] + le(4, 54) + s[44:])
    r("an overlap", s[:40] + le(4, 52) + s[44:])
    r("a part past the end", s[:36] + le(4, 6) + s[40:])
    r("a part of 2^32 - 1 bytes", s[:36] + le(4, 2 ** 32 - 1) + s[40:])
    r("the last part does not end the packet", s + b"\0")
    r("a packet cut short", s[:-1])
    r("key ids of 7 bytes", packet(2, [hello, bytes(7), b""]))
    r("nonces of 65 bytes", packet(2, [hello, b"", bytes(65)]))
    r("share of 35 bytes", packet(4, [bytes(35)]))
    r("share's key ids of 3 bytes", packet(4, [bytes(39)]))
    r("nested kind 1", packet(3, [hello, b"", good[1]]))
    r("nested packet with a byte more", packet(3, [hello, b"", response() + b"\0"]))
    r("nested packet of type 1", packet(3, [hello, b"", response()[:1] + b"\1" + response()[2:]]))
    r("nested key ids of 7 bytes", packet(3, [hello, b"", packet(2, [hello, bytes(7), b""])]))
    r("8 before 9: a malformed nested packet behind a message of 300", packet(3, [bytes(300), b"", response()[:-1]]))
    # nonces and key lists
    point = bytes([2] + [9] * 32)
    for label, n in (("two good points", point + point), ("D the identity", bytes(33) + point), ("E the identity", point + bytes(33)), ("D the generator", G + point), ("E the generator", point + G), ("D with first byte 03, G otherwise", b"\3" + G[1:] + point), ("the second nonce bad", point * 3 + G), ("no nonce", b"")):
        case("V", label, tokens(n), "yes" if valid(n) else "no")
    keys("keys 3 2 3 against 2 3", [3, 2, 3], [2, 3])
    keys("keys 2 against 2 3", [2], [2, 3])
    keys("keys 2 3 4 against 2 3", [2, 3, 4], [2, 3])
    keys("no key against none", [], [])
    keys("no key against 1", [], [1])
    keys("sixteen keys, reversed", list(range(16)), list(range(16))[::-1])
    keys("keys 3 3 3 against 1", [3, 3, 3], [1])
    keys("keys 5 5 against 1", [5, 5], [1])
    keys("keys 2 3 against 2 3", [2, 3], [2, 3])
    keys("sixteen times one key", [7] * 16, [7])
    keys("seventeen times one key: the first sixteen count", [7] * 17, [7])
    keys("sixteen keys, then one of them: the first sixteen count", list(range(16)) + [0], list(range(16)))
    keys("eight keys twice", list(range(8)) * 2, list(range(8)))
    keys("the last key is the first", list(range(15)) + [0], list(range(15)))
    keys("sixteen keys that end in the same byte", [256 * k for k in range(16)], [256 * k for k in range(16)])
    keys("eight of them twice", [256 * (k % 8) for k in range(16)], [256 * k for k in range(8)])
    keys("a set with a key twice", [3], [3, 3])
    # every list of up to four entries of 1, 2 and 257, which ends as 1 does
    for n in range(5):
        for list_ in itertools.product((1, 2, 257), repeat=n):
            keys("keys %s against 1 257" % " ".join(map(str, list_)), list(list_), [1, 257])
    # every pair of states, the Rust's own walk (coordinator/mod.rs, coordinator_state_machine) among them
    for prev in STATES:
        for nxt in STATES:
            move(prev, nxt)
    for prev, nxt in (("SigShareGather", "NonceRequest"), ("NonceRequest", "NonceGather"), ("NonceGather", "SigShareRequest"), ("SigShareRequest", "SigShareGather"), ("Idle", "NonceRequest"), ("SigShareGather", "Idle")):
        move(prev, nxt, 0, 1, label="%s of Frost to %s of Schnorr" % (prev, nxt))
        move(prev, nxt, 2, 3, label="%s without a root to %s with one" % (prev, nxt))
        move(prev, nxt, 3, 3, 1, 2, label="%s to %s of another root" % (prev, nxt))
        move(prev, nxt, 3, 3, 1, 1, label="%s to %s of the same root" % (prev, nxt))
        move(prev, nxt, 2, 2, 1, 2, label="%s to %s of type 2: the bytes beside are no root" % (prev, nxt))
    # what the program tells of a script that it cannot take
    told("case of 32,768 bytes", "32768*00")
    told("case of 32,769 bytes", "32769*00")
    told("case of 32,768 bytes and a number", "32768*00 1:0")
    told("case of 2^63 bytes", "9223372036854775808*00")
    told("a byte no times, then a packet of kind 5", "0*ff 05 31*00")
    told("numbers of every width, the largest each", " ".join("%d:%d" % (n, 256 ** n - 1) for n in range(1, 9)))
    for n in range(1, 9):
        told("%d bytes, one more than the largest" % n, "%d:%d" % (n, 256 ** n))
    for token in ("0:0", "9:1", "100", "257*100", "99999999999999999999*00", "99999999999999999999:1"):
        told("token %s" % token, token)
    for token in ("4:5f", "4:", ":5", "*", "*00", "5*", "4:5:6", "2*3*4", "1f*00", "6g", "-1", "0x11", "6F", "00,00"):
        told("no token %s" % token, "00 " + token + " 00")
    told("the first fault is told", "1:256 zz 32769*00")
    told("the first fault is told, another first", "zz 1:256 32769*00")
    for letter in "NSJTIA567":
        line("%s letter %s, buffer of 19,241 | 00 2:19241" % (letter, letter), "letter %s, buffer of 19,241: not run: no buffer is longer than 19240 bytes" % letter)
    for letter in "24":
        line("%s letter %s, buffer of 19,241 | 2:19241" % (letter, letter), "letter %s, buffer of 19,241: not run: no buffer is longer than 19240 bytes" % letter)
        line("%s letter %s, no bytes |" % (letter, letter), "letter %s, no bytes: not run: the lists are not as long as the case says" % letter)
    not_as_said()
    line("N type 4, written | 04 2:19232 2:5", "type 4, written: not run: no signature type is above 3")
    line("M from state 15 | 0f 00 00 00 00 00", "from state 15: not run: no state is above 14")
    line("M to state 15 | 00 00 00 0f 00 00", "to state 15: not run: no state is above 14")
    line("M of type 4 | 0b 04 00 0c 00 00", "of type 4: not run: no signature type is above 3")
    line("M to type 4 | 0b 00 00 0c 04 00", "to type 4: not run: no signature type is above 3")
    for letter in "XrB89":
        line("%s letter %s | 00" % (letter, letter), "letter %s: not run: no case has this letter" % letter)
    for n in (8192, 8193):
        head = "R line of %d bytes |" % n
        line(head + " " * (n - len(head)), "line of %d bytes: %s" % (n, read(b"") if n == 8192 else "not run: the line is longer than 8192 bytes"))
    line("R a line without a bar", "a line without a bar: not run: the line has no bar")
    line("", ": not run: the line has no bar")
    r("the last line, without a newline", packet(7, [], ids=(7, 0, 0)))
    text = "\n".join(script)
    open("crates/bench/stdin", "w").write(text)
    open("crates/bench/stdout", "w").write("\n".join(expected) + "\n")
    print(len(script), "cases,", len(text), "bytes")


if __name__ == "__main__":
    main()
