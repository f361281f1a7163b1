#!/usr/bin/env python3
"""Turns traces of fire.rs into lines of Site's script and the lines that its test program must print.

A trace is what the oracle prints (`gen` or `run`): for each call the lines call, answer and fields. The oracle runs fire.rs unchanged
behind the calls of document 01; nothing here knows what a call does. Only three things are said by 01 and not by the trace: which
numbers are results and which errors, that a job is out between the packet and the aggregator's answer, and that a call leaves the
answer buffer's bytes past what it wrote.

    vectors.py write ORACLE    makes the sequences of scripts/vectors.txt anew and writes crates/site_vectors/stdin and stdout
    vectors.py turn NAME       turns the trace on standard input into NAME.stdin and NAME.stdout
    vectors.py back            turns the script on standard input into call lines, for `oracle run`
    vectors.py check ORACLE    the two files again from nothing but the script: back, run by the oracle, turned

Run from the repository's root. scripts/choose_vectors.py chose the sequences.
"""
import subprocess
import sys

SCRIPT, OUTPUT = "crates/site_vectors/stdin", "crates/site_vectors/stdout"
BUFFER = 19232
LONGEST_LINE = 8192
STATES = ["Idle", "DkgPublicDistribute", "DkgPublicGather", "DkgPublicSharesDoneDistribute", "DkgPublicSharesDoneGather",
          "DkgPrivateDistribute", "DkgPrivateGather", "DkgPrivateSharesDoneDistribute", "DkgPrivateSharesDoneGather",
          "DkgEndDistribute", "DkgEndGather", "NonceRequest", "NonceGather", "SigShareRequest", "SigShareGather"]
SHARE_GATHER = 14
RESULT_KINDS = {"sign": 0, "schnorr": 1, "taproot": 2}


# --- the trace

class Call:
    """A call with its answer and the fields after it, each value still the trace's text."""

    def __init__(self, call, answer, fields):
        words = call.split()
        self.clock, self.name, self.args = int(words[1]), words[2], named(words[3:])
        self.answer = answer.split()[1:]
        self.fields = named(fields.split()[1:])


def named(words):
    return dict(w.split("=", 1) for w in words)


def sequences(lines):
    """The sequences of a trace: (seed, index, calls)."""
    found, held = None, []
    for line in lines:
        word = line.split(" ", 1)[0]
        if word == "sequence":
            if found:
                yield found
            _, index, _, seed = line.split()
            found = (int(seed), int(index), [])
        elif word == "call":
            held = [line]
        elif word == "answer":
            held.append(line)
        elif word == "fields":
            found[2].append(Call(*held, line))
    if found:
        yield found


def generated(oracle, seed, count):
    """The first sequences under a seed, by the oracle."""
    run = subprocess.Popen([oracle, "gen", str(seed), str(count)], stdout=subprocess.PIPE, text=True)
    yield from sequences(run.stdout)
    if run.wait():
        sys.exit("the oracle failed")


def unhex(text):
    return bytes.fromhex(text[1:])


def listed(text):
    return [] if text == "-" else [int(x) for x in text.split(",")]


# --- bytes as tokens

def number(n, x):
    """A number of n bytes: the shorter of its two forms."""
    data = raw(x.to_bytes(n, "little"))
    return min("%d:%d" % (n, x), data, key=len)


def raw(s):
    """Bytes; runs of one byte are written once."""
    out, i = [], 0
    while i < len(s):
        j = i
        while j < len(s) and s[j] == s[i]:
            j += 1
        out += ["%d*%02x" % (j - i, s[i])] if j - i > 1 else ["%02x" % s[i]]
        i = j
    return " ".join(out)


def joined(*tokens):
    return " ".join(t for t in tokens if t)


def num(s, at, n):
    return int.from_bytes(s[at:at + n], "little")


def parts(s):
    places = [(num(s, at, 4), num(s, at + 4, 4)) for at in range(32, 32 + 8 * num(s, 2, 2), 8)]
    return [s[at:at + size] for at, size in places]


def id_list(s):
    return [num(s, at, 4) for at in range(0, len(s), 4)]


def is_whole(answer):
    """The mark beside a job, which is ours. The trace tells whether every responder's shares are held (`whole=1`, found from the Rust's
    fields); that no key id occurs twice is read from the bytes of the Rust's job."""
    keys = id_list(parts(unhex(answer[1]))[2])
    return answer[2] == "whole=1" and len(set(keys)) == len(keys)


def packet_tokens(s):
    """A packet, its numbers as numbers."""
    kind, given = s[0], parts(s)
    head = [raw(s[:2]), number(2, num(s, 2, 2)), number(4, num(s, 4, 4))] + [number(8, num(s, at, 8)) for at in (8, 16, 24)]
    table = [number(4, num(s, at, 4)) for at in range(32, 32 + 8 * len(given), 4)]
    if kind == 2:
        body = [raw(given[0])] + [number(4, k) for k in id_list(given[1])] + [raw(given[2])]
    elif kind == 3:
        body = [raw(given[0]), raw(given[1])] + [packet_tokens(p) for p in given[2:]]
    elif kind == 4:
        body = [joined(number(4, num(p, 0, 4)), raw(p[4:36]), *[number(4, k) for k in id_list(p[36:])]) for p in given]
    else:
        body = [raw(p) for p in given]
    return joined(*head, *table, *body)


# --- calls as lines of the script

def type_and_root(args):
    return joined("%02x" % int(args["type"]), raw(unhex(args["root"]) or bytes(32)))


def timeout(text):
    """Nine bytes, whether there is one or not."""
    return "9*00" if text == "none" else joined("01", number(8, int(text)))


def signer(text):
    id_, keys = text.split(":")
    if keys == "none":
        return joined(number(4, int(id_)), "00 00")
    return joined(number(4, int(id_)), "01", "%02x" % len(listed(keys)), *[number(4, k) for k in listed(keys)])


def commissioning(args):
    counts = [number(4, int(args[n])) for n in ("num_signers", "num_keys", "threshold", "dkg_threshold", "sign_threshold")]
    signers = [] if args["signers"] == "-" else args["signers"].split(";")
    timeouts = ["27*00", timeout(args["nonce_timeout"]), timeout(args["sign_timeout"])]
    return joined(*counts, *timeouts, "%02x" % int(args["verify"]), "%02x" % len(signers), *[signer(s) for s in signers])


def start(clock, args):
    given = args["sign_id"] != "none"
    sign_id = joined("01", number(8, int(args["sign_id"]))) if given else "00 8*00"
    return joined(clock, type_and_root(args), sign_id, raw(unhex(args["message"])))


def script_line(c):
    """Letter, name and tokens of a call."""
    a, clock = c.args, number(8, c.clock)
    if c.name in ("process", "process_message"):
        packet = unhex(a["packet"])
        name = "%s, kind %d" % (c.name, packet[0]) + (" of %d" % num(packet, 4, 4) if packet[0] in (2, 4, 6) else "")
        return "P" if c.name == "process" else "M", name, joined(clock, "%02x" % int(a["verdict"]), packet_tokens(packet))
    if c.name in ("group_key", "coordinator_key"):
        group = c.name == "group_key"
        name = "%s key %s" % ("group" if group else "coordinator", "held" if a["held"] == "1" else "cleared")
        return "K", name, "%02x %02x" % (group, int(a["held"]))
    if c.name == "commission":
        return "C", "commissioning", commissioning(a)
    if c.name == "dkg_results":
        return "E", "results", joined(number(8, int(a["dkg_id"])), *[number(4, s) for s in listed(a["ended"])])
    if c.name == "can_move_to":
        return "Q", "move to " + STATES[int(a["state"])], joined("%02x" % int(a["state"]), type_and_root(a))
    if c.name == "start":
        return "S", "start", start(clock, a)
    return {"process_timeout": ("T", "process_timeout", clock), "reset": ("Z", "reset", "")}[c.name]


# --- answers and states as the program prints them

def hexed(s):
    return s.hex() or "-"


def ids(numbers):
    return " ".join(map(str, numbers)) or "-"


def round_ids(s):
    return "dkg %d, sign %d, iteration %d" % tuple(num(s, at, 8) for at in (8, 16, 24))


def response_text(s):
    message, keys, nonces = parts(s)
    return " [signer %d, %s, message %s, keys %s, nonces %d]" % (
        num(s, 4, 4), round_ids(s), hexed(message), ids(id_list(keys)), len(nonces) // 66)


def packet_text(s):
    """A written packet, field by field."""
    kind, given = s[0], parts(s)
    if kind == 33:
        return "nonce timeout, waiters %s, struck %s" % tuple(ids(id_list(p)) for p in given)
    if kind == 34:
        return "insufficient signers, struck %s" % ids(id_list(given[0]))
    name = {1: "nonce request", 3: "share request", 32: "job"}[kind]
    text = "%s, %s, type %d, message %s, root %s" % (name, round_ids(s), s[1], hexed(given[0]), hexed(given[1]))
    if kind == 3:
        text += "".join(response_text(p) for p in given[2:])
    if kind == 32:
        text += ", keys %s, nonces %d" % (ids(id_list(given[2])), len(given[3]) // 66)
        text += "".join(" [share %d, keys %s]" % (num(p, 0, 4), ids(id_list(p[36:]))) for p in given[4:])
    return text


def state_text(fields, job_out=False):
    state = int(fields["state"])
    name = STATES[state] + (" type " + fields["type"] if state >= 11 else "")
    text = "%s, dkg %s, sign %s, iteration %s, struck %s" % (
        name, fields["dkg_id"], fields["sign_id"], fields["iteration"], ids(listed(fields["struck"])))
    return text + (", job out" if job_out else "")


def refusal_text(number_, values, sharing):
    """Share gathering's 16, 17 and 20 to 22 are results in the Rust, everything else an error."""
    text = "%s %d" % ("result" if sharing and number_ in (16, 17, 20, 21, 22) else "error", number_)
    if number_ in (16, 17, 18):
        return text + ", got %s, expected %s" % tuple(values)
    return text + (", signer %s" % values[0] if number_ in (20, 21, 22) else "")


class Buffer:
    """The answer buffer that the program lends to every call."""

    def __init__(self):
        self.bytes = bytes(BUFFER)

    def take(self, written):
        """The whole buffer's sum after a packet was written at its beginning."""
        self.bytes = written + self.bytes[len(written):]
        h = 0
        for b in self.bytes:
            h = (h * 31 + b) & 0xffffffff
        return "%08x" % h


# --- a sequence as script and output

class Lines:
    def __init__(self):
        self.script, self.output, self.buffer = [], [], Buffer()

    def heading(self, label):
        self.script.append("H %s | " % label)
        self.output.append("== " + label)

    def line(self, letter, label, tokens, answer, state):
        text = "%s %s | %s" % (letter, label, tokens)
        assert len(text) <= LONGEST_LINE, "a line of %d bytes" % len(text)
        self.script.append(text)
        self.output.append("%s: %s. %s" % (label, answer, state))

    def call(self, at, c, before):
        """The lines of the call with this number; `before` are the fields before it."""
        letter, name, tokens = script_line(c)
        label = "%d %s" % (at, name)
        word = c.answer[0]
        if word == "job":
            return self.job(at, label, letter, tokens, c, before)
        if word == "packet":
            s = unhex(c.answer[1])
            word = "result" if s[0] in (33, 34) else "packet"
            answer = "%s of %d bytes, sum %s: %s" % (word, len(s), self.buffer.take(s), packet_text(s))
        elif word == "refused":
            sharing = c.name in ("process", "process_message") and int(before["state"]) == SHARE_GATHER
            answer = refusal_text(int(c.answer[1]), c.answer[2:], sharing)
        else:
            answer = {"nothing": "nothing", "move": "told " + c.answer[-1]}[word]
        self.line(letter, label, tokens, answer, state_text(c.fields))

    def job(self, at, label, letter, tokens, c, before):
        """The Rust runs the aggregator inside the call: here the job goes out, and the aggregator's answer is a call of its own."""
        s, result = unhex(c.answer[1]), c.answer[3].split("=")[1]
        assert int(before["state"]) == SHARE_GATHER
        assert all(before[n] == c.fields[n] for n in ("dkg_id", "sign_id", "iteration", "struck"))
        answer = "job of %d bytes, whole %s, sum %s: %s" % (
            len(s), "yes" if is_whole(c.answer) else "no", self.buffer.take(s), packet_text(s))
        self.line(letter, label, tokens, answer, state_text(before, True))
        failed = result == "23"
        told = "result 23" if failed else "told %d" % RESULT_KINDS[result]
        self.line("A", "%d aggregator" % at, "00" if failed else "01", told, state_text(c.fields))

    def sequence(self, seed, index, calls):
        self.heading("fire.rs, seed %d, sequence %d" % (seed, index))
        before = None
        for at, c in enumerate(calls):
            self.call(at, c, before)
            before = c.fields

    def write(self, script, output):
        for path, lines in ((script, self.script), (output, self.output)):
            with open(path, "w") as f:
                f.write("\n".join(lines) + "\n")


# --- a script as calls again

class Reader:
    """A line's bytes, read from the left."""

    def __init__(self, tokens):
        self.bytes = b"".join(token_bytes(t) for t in tokens.split())

    def take(self, n):
        taken, self.bytes = self.bytes[:n], self.bytes[n:]
        assert len(taken) == n, "the line is too short"
        return taken

    def number(self, n):
        return int.from_bytes(self.take(n), "little")

    def rest(self):
        return self.take(len(self.bytes))


def token_bytes(t):
    if ":" in t:
        n, x = t.split(":")
        return int(x).to_bytes(int(n), "little")
    n, byte = t.split("*") if "*" in t else ("1", t)
    return bytes([int(byte, 16)]) * int(n)


def numbers_text(numbers):
    return ",".join(map(str, numbers)) or "-"


def commission_back(r):
    names = ("num_signers", "num_keys", "threshold", "dkg_threshold", "sign_threshold")
    words = ["%s=%d" % (n, r.number(4)) for n in names]
    timeouts = [str(value) if some else "none" for some, value in [(r.number(1), r.number(8)) for _ in range(5)]]
    assert timeouts[:3] == ["none"] * 3, "the oracle has no timeouts of key generation"
    words += ["nonce_timeout=" + timeouts[3], "sign_timeout=" + timeouts[4], "verify=%d" % r.number(1)]
    signers = []
    for _ in range(r.number(1)):
        id_, entry, count = r.number(4), r.number(1), r.number(1)
        keys = [r.number(4) for _ in range(count)]
        signers.append("%d:%s" % (id_, numbers_text(keys) if entry else "none"))
    return "commission %s signers=%s" % (" ".join(words), ";".join(signers) or "-")


def type_back(r):
    type_, root = r.number(1), r.take(32)
    return "type=%d root=x%s" % (type_, root.hex() if type_ == 3 else "")


def start_back(r):
    type_, given, sign_id = type_back(r), r.number(1), r.number(8)
    return "start message=x%s %s sign_id=%s" % (r.rest().hex(), type_, sign_id if given else "none")


def call_back(letter, r, agg_ok):
    """The oracle's call line of a script's line."""
    clock = r.number(8) if letter in "SPMT" else 0
    if letter in "PM":
        name, verdict = "process" if letter == "P" else "process_message", r.number(1)
        text = "%s packet=x%s verdict=%d agg_ok=%d" % (name, r.rest().hex(), verdict, agg_ok)
    elif letter == "K":
        text = "%s held=%d" % (("coordinator_key", "group_key")[r.number(1)], r.number(1))
    elif letter == "E":
        text = "dkg_results dkg_id=%d ended=%s" % (r.number(8), numbers_text(id_list(r.rest())))
    elif letter == "Q":
        text = "can_move_to state=%d %s" % (r.number(1), type_back(r))
    else:
        text = {"C": commission_back, "S": start_back, "T": lambda _: "process_timeout", "Z": lambda _: "reset"}[letter](r)
    assert not r.bytes, "the line is too long"
    return "call %d %s" % (clock, text)


def trace_back(lines):
    """A script as the oracle reads it. The aggregator's answer goes with the packet before it."""
    lines = list(lines)
    for at, line in enumerate(lines):
        letter, (label, tokens) = line[0], line[2:].split("|", 1)
        if letter == "H":
            words = label.replace(",", "").split()
            yield "sequence %s seed %s" % (words[-1], words[-3])
        elif letter != "A":
            answered = at + 1 < len(lines) and lines[at + 1][0] == "A"
            failed = answered and Reader(lines[at + 1].split("|", 1)[1]).bytes == b"\0"
            yield call_back(letter, Reader(tokens), not failed)


def check(oracle):
    """Whether script and output come out again from the script alone."""
    with open(SCRIPT) as f:
        calls = "\n".join(trace_back(f)) + "\n"
    run = subprocess.run([oracle, "run"], input=calls, capture_output=True, text=True, check=True)
    again = Lines()
    for found in sequences(run.stdout.splitlines()):
        again.sequence(*found)
    same = []
    for path, lines in ((SCRIPT, again.script), (OUTPUT, again.output)):
        with open(path) as f:
            same.append(f.read() == "\n".join(lines) + "\n")
        print("%s: %d lines, %s" % (path, len(lines), "the same" if same[-1] else "different"))
    return all(same)


# --- the list

def chosen(path="scripts/vectors.txt"):
    """The list: seed, sequence and how many of its calls, a line each; # begins a comment."""
    with open(path) as f:
        return [tuple(map(int, line.split())) for line in f if line.strip() and line[0] != "#"]


def chosen_calls(oracle, wanted):
    """The chosen calls of each chosen sequence, in the list's order."""
    by_place = {}
    for seed in sorted({seed for seed, _, _ in wanted}):
        lengths = {index: count for s, index, count in wanted if s == seed}
        for _, index, calls in generated(oracle, seed, max(lengths) + 1):
            if index in lengths:
                by_place[seed, index] = calls[:lengths[index]]
    return [(seed, index, by_place[seed, index]) for seed, index, _ in wanted]


def main():
    what, rest = sys.argv[1:2], sys.argv[2:]
    lines = Lines()
    if what == ["write"] and len(rest) == 1:
        script, output = SCRIPT, OUTPUT
        found = chosen_calls(rest[0], chosen())
    elif what == ["turn"] and len(rest) == 1:
        script, output = rest[0] + ".stdin", rest[0] + ".stdout"
        found = sequences(sys.stdin)
    elif what == ["back"] and not rest:
        print("\n".join(trace_back(sys.stdin)))
        return
    elif what == ["check"] and len(rest) == 1:
        sys.exit(not check(rest[0]))
    else:
        sys.exit(__doc__)
    for seed, index, calls in found:
        lines.sequence(seed, index, calls)
    lines.write(script, output)


if __name__ == "__main__":
    main()
