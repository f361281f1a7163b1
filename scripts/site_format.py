"""Site's script lines and what the test program prints for them (docs/SITE.md): for any script that writes vectors.

An answer is a tuple: ("nothing",), ("error", number, values), ("result", number, values), ("told", value), ("packet", bytes),
("written", bytes) for a result of bytes, ("job", bytes, whole). A standing is None (uncommissioned) or a dict with state, type
(None where the state has none), ids (dkg, sign, iteration), struck and job.
"""
from bench import STATES, checksum, fields, le, num, packet, tokens

STORE_LENGTH, ANSWER_LENGTH = 52224, 19232


def parts_of(s):
    """The parts that a packet's pairs name."""
    return [s[num(s, 32 + 8 * i, 4):num(s, 32 + 8 * i, 4) + num(s, 36 + 8 * i, 4)] for i in range(num(s, 2, 2))]


def numbers(s, width=4):
    return [num(s, i, width) for i in range(0, len(s) - width + 1, width)]


def listed(ids):
    return "".join(" %d" % i for i in ids) or " -"


def hexed(s):
    return s.hex() or "-"


def ids_text(ids):
    return ", dkg %d, sign %d, iteration %d" % tuple(ids)


def packet_text(s):
    """The fields of a packet that a call wrote."""
    h, parts = fields(s), parts_of(s)
    kind = h["kind"]
    if kind == 33:
        return "nonce timeout, waiters%s, struck%s" % (listed(numbers(parts[0])), listed(numbers(parts[1])))
    if kind == 34:
        return "insufficient signers, struck%s" % listed(numbers(parts[0]))
    if kind == 35:
        return "arrivals, signers%s, readings%s" % (listed(numbers(parts[0])), listed(numbers(parts[1], 8)))
    text = {1: "nonce request", 3: "share request", 32: "job"}[kind] + ids_text(h["ids"])
    text += ", type %d, message %s, root %s" % (h["type"], hexed(parts[0]), hexed(parts[1]))
    if kind == 3:
        for p in parts[2:]:
            message, keys, nonces = parts_of(p)
            text += " [signer %d%s, message %s, keys%s, nonces %d]" % (
                fields(p)["signer"], ids_text(fields(p)["ids"]), hexed(message), listed(numbers(keys)), len(nonces) // 66)
    if kind == 32:
        text += ", keys%s, nonces %d" % (listed(numbers(parts[2])), len(parts[3]) // 66)
        text += "".join(" [share %d, keys%s]" % (num(p, 0, 4), listed(numbers(p[36:]))) for p in parts[4:])
    return text


class Buffer:
    """The answer buffer: what a packet leaves untouched stays from the calls before."""

    def __init__(self):
        self.bytes, self.lent = bytearray(ANSWER_LENGTH), ANSWER_LENGTH

    def write(self, s):
        self.bytes[:len(s)] = s

    def sum(self):
        return checksum(self.bytes[:self.lent])


def answer_text(answer, buffer):
    """Writes the answer's bytes into the buffer, as the call did."""
    what = answer[0]
    if what == "nothing":
        return "nothing"
    if what == "told":
        return "told %d" % answer[1]
    if what in ("error", "result"):
        values = answer[2]
        more = ", got %d, expected %d" % tuple(values) if len(values) == 2 else ", signer %d" % values[0] if values else ""
        return "%s %d%s" % (what, answer[1], more)
    data = answer[1]
    buffer.write(data)
    mark = ", whole %s" % ("yes" if answer[2] else "no") if what == "job" else ""
    name = {"packet": "packet", "written": "result", "job": "job"}[what]
    return "%s of %d bytes%s, sum %s: %s" % (name, len(data), mark, buffer.sum(), packet_text(data))


def standing_text(s):
    if s is None:
        return "uncommissioned"
    kind = "" if s["type"] is None else " type %d" % s["type"]
    return "%s%s%s, struck%s%s" % (s["state"], kind, ids_text(s["ids"]), listed(sorted(s["struck"])), ", job out" if s["job"] else "")


def expected(label, text, standing):
    return "%s: %s. %s" % (label, text, standing_text(standing))


# --- the lines of the script

def line(letter, label, args=""):
    text = "%s %s | %s" % (letter, label, args)
    text = text.rstrip() if not args else text
    assert len(text) <= 8192, label
    return text


def heading_line(label):
    return line("H", label)


def lend_line(label, store, room):
    return line("B", label, "4:%d 4:%d" % (store, room))


def commission_line(label, config):
    """config: numbers (five), timeouts (five, None for none), verify, signers as (id, None or keys)."""
    args = ["4:%d" % n for n in config["numbers"]]
    args += ["%02x 8:%d" % (t is not None, t or 0) for t in config["timeouts"]]
    args += ["%02x %02x" % (config["verify"], len(config["signers"]))]
    for i, keys in config["signers"]:
        args.append(" ".join(["4:%d %02x %02x" % (i, keys is not None, len(keys or ()))] + ["4:%d" % k for k in keys or ()]))
    return line("C", label, " ".join(args))


def key_line(label, which, held):
    return line("K", label, "%02x %02x" % (which, held))


def results_line(label, dkg, ended):
    return line("E", label, " ".join(["8:%d" % dkg] + ["4:%d" % i for i in ended]))


def move_line(label, state, type_, root):
    return line("Q", label, "%02x %02x %s" % (STATES.index(state), type_, tokens(root)))


def start_line(label, clock, type_, root, sign, message):
    args = "8:%d %02x %s %02x 8:%d %s" % (clock, type_, tokens(root), sign is not None, sign or 0, tokens(message))
    return line("S", label, args.rstrip())


def packet_line(letter, label, clock, verdict, data):
    return line(letter, label, ("8:%d %02x %s" % (clock, verdict, tokens(data))).rstrip())


def timeout_line(label, clock):
    return line("T", label, "8:%d" % clock)


def aggregated_line(label, ok):
    return line("A", label, "%02x" % ok)


def reset_line(label):
    return line("Z", label)


def arrivals_line(label):
    return line("W", label)
