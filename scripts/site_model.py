"""A model of document 01's calls on the coordinator, with the script's line of each call and the line that the test program must print.

It is written from document 01 ("The questions, in order", "Corners", "Packet layout") and document 02 (c, the mark; e, the arrivals), and
shares no code with the crates.
"""
import site_format as form
from bench import STATES, fields, laid_out, le, may_move, packet, response, share, valid, within

ZERO = bytes(32)
U64 = 2 ** 64
NOTHING = ("nothing",)
# net.rs, Packet::verify: whether a signer's key tests this kind, or the coordinator's
IS_SIGNER_KIND = {1: False, 2: True, 3: False, 4: True, 5: False, 6: True, 7: False}


def error(n, *values):
    return ("error", n, values)


def result(n, *values):
    return ("result", n, values)


def ids_bytes(ids):
    return b"".join(le(4, i) for i in ids)


class Coordinator:
    """01's coordinator after commissioning."""

    def __init__(self, config):
        self.config = config
        self.keys = {i: None if k is None else set(k) for i, k in config["signers"]}
        self.num_keys, self.threshold, self.sign_threshold = config["numbers"][1], config["numbers"][2], config["numbers"][4]
        self.nonce_timeout, self.sign_timeout = config["timeouts"][3:]
        self.held = [False, False]  # the coordinator's key, the group's
        self.dkg = self.sign = self.iteration = 0
        self.state, self.type, self.root = "Idle", None, ZERO
        self.message = b""
        self.records = []  # a message's record: message, responses and their clock readings by signer, waiters
        self.shares = {}
        self.ended, self.struck = set(), set()
        self.nonce_start = self.sign_start = None
        self.job = False

    def standing(self):
        ids = (self.dkg, self.sign, self.iteration)
        return dict(state=self.state, type=self.type, ids=ids, struck=self.struck, job=self.job)

    def move(self, state, type_=None, root=ZERO):
        self.state, self.type, self.root = state, type_, root

    def may(self, state, type_, root):
        return may_move(self.state, self.type, self.root, state, type_, root)

    def record(self, message):
        return next((r for r in self.records if r["message"] == message), None)

    def head(self, kind, parts):
        root = self.root if self.type == 3 else b""
        return packet(kind, [self.message, root] + parts, self.type, 0, (self.dkg, self.sign, self.iteration))

    # --- rounds

    def begin(self, clock, message, type_, root, sign):
        if not self.held[1]:
            return error(10)
        self.message = message
        self.sign = (self.sign + 1) % U64 if sign is None else sign
        if not self.may("NonceRequest", type_, root):
            return error(11)
        return self.request_nonces(clock, type_, root)

    def request_nonces(self, clock, type_, root):
        self.records = []
        self.iteration = (self.iteration + 1) % U64
        self.move("NonceGather", type_, root)
        self.nonce_start = clock
        return ("packet", self.head(1, []))

    def request_shares(self, clock, record):
        self.shares = {}
        self.move("SigShareGather", self.type, self.root)
        self.sign_start = clock
        return ("packet", self.head(3, [record["responses"][i] for i in sorted(record["responses"])]))

    # --- timeouts

    def fires(self, clock, start, timeout):
        return start is not None and timeout is not None and max(0, clock - start) > timeout

    def late(self, clock):
        """The timeout's answer, None where none fires."""
        if self.state == "NonceGather" and self.fires(clock, self.nonce_start, self.nonce_timeout):
            return self.late_nonces()
        if self.state == "SigShareGather" and self.fires(clock, self.sign_start, self.sign_timeout):
            return self.late_shares(clock)
        return None

    def late_nonces(self):
        r = self.record(self.message)
        if r is None:
            return error(12)
        return ("written", packet(33, [ids_bytes(sorted(r["waiters"])), ids_bytes(sorted(self.struck))]))

    def late_shares(self, clock):
        r = self.record(self.message)
        if r is None:
            return error(12)
        self.struck |= r["waiters"]
        lost = sum(len(self.keys[i] or ()) for i in self.struck)
        if self.num_keys - lost < self.threshold:
            return ("written", packet(34, [ids_bytes(sorted(self.struck))]))
        return self.request_nonces(clock, self.type, self.root)

    # --- messages

    def on_message(self, clock, verdict, s, parts):
        h = fields(s)
        if self.config["verify"]:
            if not self.held[0]:
                return error(13)
            if (IS_SIGNER_KIND[h["kind"]] and h["signer"] not in self.keys) or not verdict:
                return error(14)
        if self.state == "Idle":
            return self.idle(clock, h, parts)
        if self.state == "NonceGather" and h["kind"] == 2:
            return self.gather_nonces(clock, s, h, parts)
        if self.state == "SigShareGather" and h["kind"] == 4:
            return self.gather_shares(h, parts)
        return NOTHING

    def idle(self, clock, h, parts):
        if h["kind"] == 5 and h["ids"][0] != self.dkg:
            return error(15)
        if h["kind"] != 1 or h["ids"][1] == self.sign:
            return NOTHING
        self.iteration = (h["ids"][2] - 1) % U64
        return self.begin(clock, parts[0], h["type"], parts[1] or ZERO, h["ids"][1])

    def gather_nonces(self, clock, s, h, parts):
        for n, got, expected in zip((16, 17, 18), h["ids"], (self.dkg, self.sign, self.iteration)):
            if got != expected:
                return error(n, got, expected)
        i = h["signer"]
        if i not in self.keys or i not in self.ended or self.keys[i] is None:
            return NOTHING
        if set(form.numbers(parts[1])) != self.keys[i] or not valid(parts[2]) or i in self.struck:
            return NOTHING
        r = self.record(parts[0])
        if r is None:
            if len(self.records) >= 4:
                return error(19)
            r = dict(message=parts[0], responses={}, readings={}, waiters=set())
            self.records.append(r)
        if i in r["responses"]:
            return NOTHING
        r["responses"][i], r["readings"][i] = s, clock
        r["waiters"].add(i)
        if len(set().union(*(self.keys[j] for j in r["responses"]))) < self.sign_threshold:
            return NOTHING
        self.message = parts[0]
        if not self.held[1]:
            return error(10)
        return self.request_shares(clock, r)

    def gather_shares(self, h, parts):
        r, i = self.record(self.message), h["signer"]
        if r is None or i not in r["waiters"]:
            return NOTHING
        for n, got, expected in zip((16, 17), h["ids"], (self.dkg, self.sign)):
            if got != expected:
                return result(n, got, expected)
        r["waiters"].remove(i)
        if i not in self.keys:
            return result(20, i)
        if i not in self.ended:
            return NOTHING
        if self.keys[i] is None:
            return result(21, i)
        if {k for p in parts for k in form.numbers(p[36:])} != self.keys[i]:
            return result(22, i)
        if i in self.shares:
            return NOTHING
        self.shares[i] = parts
        if r["waiters"]:
            return NOTHING
        responders = sorted(r["responses"])
        lists = [form.parts_of(r["responses"][j]) for j in responders]
        shares = [p for j in responders for p in self.shares.get(j, [])]
        self.job = True
        job = self.head(32, [b"".join(p[1] for p in lists), b"".join(p[2] for p in lists)] + shares)
        keys = form.numbers(b"".join(p[1] for p in lists))
        return ("job", job, all(j in self.shares for j in responders) and len(set(keys)) == len(keys))

    # --- the query

    def arrivals(self):
        """02, e): when each signer answered the current message."""
        r = self.record(self.message)
        came = sorted(r["readings"].items()) if r else []
        return ("written", packet(35, [ids_bytes(i for i, _ in came), b"".join(le(8, clock) for _, clock in came)]))


class Site:
    """The host: each call's line of the script and the line that it must print."""

    def __init__(self):
        self.script, self.expected, self.calls = [], [], 0
        self.c, self.store, self.buffer = None, form.STORE_LENGTH, form.Buffer()
        self.numbers = set()

    def told(self, line, label, answer):
        text = answer if isinstance(answer, str) else form.answer_text(answer, self.buffer)
        self.script.append(line)
        self.expected.append(form.expected(label, text, self.c and self.c.standing()))
        self.calls += 1
        if answer[0] in ("error", "result"):
            self.numbers.add(answer[1])
        return answer

    def heading(self, label):
        self.script.append(form.heading_line(label))
        self.expected.append("== " + label)

    def before(self, no_job=True, a_job=False, room=False):
        """4, then 5, 6 and 7 where they are asked."""
        if self.c is None or self.store < form.STORE_LENGTH:
            return 4
        if no_job and self.c.job:
            return 5
        if a_job and not self.c.job:
            return 6
        if room and self.buffer.lent < form.ANSWER_LENGTH:
            return 7
        return None

    def lend(self, label, store=form.STORE_LENGTH, room=form.ANSWER_LENGTH):
        if store > form.STORE_LENGTH or room > form.ANSWER_LENGTH:
            return self.told(form.lend_line(label, store, room), label, "not run: no more is lent than 52224 and 19232 bytes")
        self.store, self.buffer.lent = store, room
        self.told(form.lend_line(label, store, room), label, NOTHING)

    def commission(self, label, config):
        signers = config["signers"]
        line = form.commission_line(label, config)
        if len(signers) > 11:
            return self.told(line, label, "not run: no configuration has more than 11 signers")
        if any(len(k or ()) > 17 for _, k in signers):
            return self.told(line, label, "not run: no signer has more than 17 keys")
        sets = [k for _, k in signers if k is not None]
        self.c = None
        if len(signers) > 10 or len({i for i, _ in signers}) < len(signers):
            answer = error(1)
        elif any(len(k) > 16 or len(set(k)) < len(k) for k in sets):
            answer = error(2)
        elif sum(len(k) for k in sets) > config["numbers"][1]:
            answer = error(3)
        else:
            answer, self.c = NOTHING, Coordinator(config)
        return self.told(line, label, answer)

    def key(self, label, which, held):
        n = self.before()
        if n is None:
            self.c.held[which] = held
        return self.told(form.key_line(label, which, held), label, error(n) if n else NOTHING)

    def results(self, label, dkg, ended):
        line, n = form.results_line(label, dkg, ended), self.before()
        if len(ended) > 16:
            return self.told(line, label, "not run: no results have more than 16 signers")
        if n is None and self.c.state != "Idle":
            n = 24
        if n is None and (len(ended) > 10 or any(i not in self.c.keys for i in ended)):
            n = 25
        if n is None:
            self.c.dkg, self.c.ended = dkg, set(ended)
        return self.told(line, label, error(n) if n else NOTHING)

    def move(self, label, state, type_=0, root=ZERO):
        n = self.before()
        typed = STATES.index(state) > 10
        answer = error(n) if n else ("told", int(self.c.may(state, type_ if typed else None, root)))
        return self.told(form.move_line(label, state, type_, root), label, answer)

    def start(self, label, clock, message, type_=0, root=ZERO, sign=None):
        n = self.before(room=True)
        if n is None and len(message) > 256:
            n = 9
        answer = error(n) if n else self.c.begin(clock, message, type_, root, sign)
        return self.told(form.start_line(label, clock, type_, root, sign, message), label, answer)

    def receive(self, letter, label, clock, s, verdict):
        n, parts = self.before(room=True), laid_out(s)
        if n is None and parts is None:
            n = 8
        if n is None and not within(s, parts):
            n = 9
        if n:
            answer = error(n)
        else:
            answer = self.c.late(clock) if letter == "P" else None
            answer = answer or self.c.on_message(clock, verdict, s, parts)
        return self.told(form.packet_line(letter, label, clock, verdict, s), label, answer)

    def process(self, label, clock, s, verdict=1):
        return self.receive("P", label, clock, s, verdict)

    def process_message(self, label, clock, s, verdict=1):
        return self.receive("M", label, clock, s, verdict)

    def timeout(self, label, clock):
        n = self.before(room=True)
        answer = error(n) if n else self.c.late(clock) or NOTHING
        return self.told(form.timeout_line(label, clock), label, answer)

    def aggregated(self, label, ok):
        n = self.before(no_job=False, a_job=True)
        if n:
            answer = error(n)
        elif not ok:
            self.c.job, answer = False, result(23)
        else:
            answer = ("told", {1: 1, 2: 2, 3: 2}.get(self.c.type, 0))
            self.c.job = False
            self.c.move("Idle")
        return self.told(form.aggregated_line(label, ok), label, answer)

    def reset(self, label):
        n = self.before(no_job=False)
        if n is None:
            c = self.c
            c.move("Idle")
            c.records, c.shares, c.ended, c.nonce_start, c.sign_start, c.job = [], {}, set(), None, None, False
        return self.told(form.reset_line(label), label, error(n) if n else NOTHING)

    def arrivals(self, label):
        n = self.before(room=True)
        return self.told(form.arrivals_line(label), label, error(n) if n else self.c.arrivals())

    def raw(self, line, label, text):
        """A line that is no call."""
        self.told(line, label, text)

    # --- shorter forms of the cases

    def ids(self):
        return (self.c.dkg, self.c.sign, self.c.iteration)

    def request(self, message, sign, iteration, type_=0, root=b"", dkg=7):
        return packet(1, [message, root], type_, 0, (dkg, sign, iteration))

    def answers(self, i, message=b"a", keys=None, ids=None, nonces=None):
        """Signer i's nonce response, with the ids that are current."""
        keys = sorted(self.c.keys.get(i) or ()) if keys is None else keys
        return response(i, ids or self.ids(), message, keys, nonces)

    def shares(self, i, keys=None, ids=None):
        keys = sorted(self.c.keys.get(i) or ()) if keys is None else keys
        return packet(4, [share(k, [k], bytes([k % 251 + 1] * 32)) for k in keys], 0, i, ids or self.ids())

    def ready(self, label, config=None, clock=None, message=b"a", type_=0, root=ZERO):
        """Commissioned, the group's key held, key generation ended by all; started where a clock is given."""
        config = config or WORKED
        self.heading(label)
        self.commission("commissioned", config)
        self.key("group key held", 1, 1)
        self.results("key generation ended", 7, [i for i, _ in config["signers"]])
        if clock is not None:
            self.start("start", clock, message, type_, root)

    def to_shares(self, label, config=None, signers=(0, 1), message=b"a", type_=0, root=ZERO):
        """Gathering shares since clock 102."""
        self.ready(label, config, 100, message, type_, root)
        for i in signers:
            self.process("%d answers" % i, 102, self.answers(i, message))


def configured(signers, num_keys=None, threshold=3, sign_threshold=None, timeouts=(None, None, None, 10, 10), verify=0, dkg_threshold=None):
    total = sum(len(k or ()) for _, k in signers)
    threshold_of = lambda n: threshold if n is None else n
    numbers = (len(signers), total if num_keys is None else num_keys, threshold, threshold_of(dkg_threshold), threshold_of(sign_threshold))
    return dict(numbers=numbers, timeouts=timeouts, verify=verify, signers=signers)


# "Signers 0, 1, 2; keys {1}, {2, 3}, {4}; num_keys 4, both thresholds 3, both timeouts 10."
WORKED = configured([(0, [1]), (1, [2, 3]), (2, [4])])
PAIR = configured([(0, [1]), (1, [2])], threshold=1, sign_threshold=2)
