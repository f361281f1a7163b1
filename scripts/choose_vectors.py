#!/usr/bin/env python3
"""Chooses the sequences of fire.rs that Site's test program replays: scripts/vectors.txt.

    choose_vectors.py choose ORACLE    writes the list
    choose_vectors.py reached ORACLE   what the list's calls reach, how often
    choose_vectors.py agree ORACLE     holds the counts below to the oracle's own (`oracle stats`) on 1,000 sequences

A call's features are what `oracle stats` counts of it (call, answer, state, corners; the same names) and, after these, finer ones of
our own. A beginning of a sequence is taken again and again, the one that brings the most features still wanted for its length in bytes, and a
few calls more.
"""
import heapq
import subprocess
import sys
from collections import Counter

from vectors import (LONGEST_LINE, STATES, chosen, chosen_calls, generated, id_list, listed, num, parts, script_line, unhex)

SEEDS, PER_SEED, SEQUENCES = (1, 2, 3), 1500, 200
SCRIPT_BYTES, OUTPUT_BYTES = 1_800_000, 2_800_000  # as `costs` says, which is about a third more than the script has
HEADING = 6_500  # what a sequence more is held to cost, in bytes: 200 are to use up the room
IDLE, NONCE_GATHER, SHARE_GATHER = 0, 12, 14
LARGEST = 2 ** 64 - 1
G = bytes.fromhex("0279BE667EF9DCBBAC55A06295CE870B07029BFCDB2DCE28D959F2815B16F81798")
TAIL = 3  # calls more, which show what the last of them left
WEIGHTY = ("the sign id wraps", "the iteration wraps", "10 on an Idle packet", "start, roots", "can_move_to, roots", "written: kind 3 with",
           "written: job", "reset in", "16 shares in SigShareGather: kind 32", "shares where nobody waits")
PACKET_CALLS = ("process", "process_message")
SILENT = ["not configured", "not ended", "no key set", "set differs", "nonce invalid", "struck"]


# --- what the trace says, read

class Config:
    def __init__(self, args):
        self.num_keys, self.sign_threshold = int(args["num_keys"]), int(args["sign_threshold"])
        self.timeouts = {NONCE_GATHER: option(args["nonce_timeout"]), SHARE_GATHER: option(args["sign_timeout"])}
        self.verify, self.threshold = args["verify"] == "1", int(args["threshold"])
        self.signers = {}
        for s in [] if args["signers"] == "-" else args["signers"].split(";"):
            id_, keys = s.split(":")
            self.signers[int(id_)] = None if keys == "none" else set(listed(keys))


class Fields:
    def __init__(self, f):
        self.state, self.type, self.root, self.message = int(f["state"]), int(f["type"]), f["root"], f["message"]
        self.dkg_id, self.sign_id, self.iteration = int(f["dkg_id"]), int(f["sign_id"]), int(f["iteration"])
        self.struck, self.ended = listed(f["struck"]), listed(f["ended"])
        self.begun = {NONCE_GATHER: option(f["nonce_start"]), SHARE_GATHER: option(f["sign_start"])}
        self.group_key, self.coordinator_key = f["group_key"] == "1", f["coordinator_key"] == "1"
        self.records = {}
        for r in [] if f["records"] == "-" else f["records"].split("|"):
            message, responses, waiters, _ = r.split("/")
            held = [] if responses == "-" else [int(x.split(":")[0]) for x in responses.split(";")]
            self.records[message] = (held, listed(waiters))
        self.shares = dict(s.split(":", 1) for s in ([] if f["shares"] == "-" else f["shares"].split("|")))


def option(text):
    return None if text == "none" else int(text)


def elapsed(f, clock):
    begun = f.begun.get(f.state)
    return None if begun is None else max(0, clock - begun)


def limit(c, f):
    return c.timeouts.get(f.state)


def fires(c, f, clock):
    return elapsed(f, clock) is not None and limit(c, f) is not None and elapsed(f, clock) > limit(c, f)


def verified(c, f, packet, verdict):
    if not c.verify:
        return True
    return f.coordinator_key and verdict and (packet[0] not in (2, 4, 6) or num(packet, 4, 4) in c.signers)


def dropped(c, f, packet):
    """Which of the silent tests of nonce gathering is first answered no."""
    id_, (_, keys, nonces) = num(packet, 4, 4), parts(packet)
    key_set = c.signers.get(id_)
    points = [nonces[at:at + 33] for at in range(0, len(nonces), 33)]
    tests = [id_ in c.signers, id_ in f.ended, key_set is not None, key_set == set(id_list(keys)),
             all(p not in (bytes(33), G) for p in points), id_ not in f.struck]
    return tests.index(False) if False in tests else None


# --- what the oracle's stats count

def answer_name(answer):
    if answer[0] == "packet":
        kind = int(answer[1][1:3], 16)
        return {33: "kind 33 NonceTimeout", 34: "kind 34 InsufficientSigners"}.get(kind, "kind %d" % kind)
    if answer[0] == "job":
        return {"sign": "kind 32 and Sign", "schnorr": "kind 32 and SignSchnorr", "taproot": "kind 32 and SignTaproot",
                "23": "kind 32 and aggregator error (23)"}[answer[3].split("=")[1]]
    if answer[0] == "move":
        return "move true" if answer[1] == "1" else "move false"
    return "refused " + answer[1] if answer[0] == "refused" else answer[0]


def sent_kind(call):
    return int(call.answer[1][1:3], 16) if call.answer[0] == "packet" else None


def state_name(f):
    return {IDLE: "Idle", NONCE_GATHER: "NonceGather"}.get(f.state, "SigShareGather")


def corners(c, f, call, after):
    """The corners of a call that its answer alone does not show; `f` are the fields before it."""
    state, timed = state_name(f), call.name in ("process", "process_timeout")
    fired = timed and fires(c, f, call.clock)
    if call.answer[0] == "refused":
        by = {"start": "start", "process_timeout": "timeout"}.get(call.name, "packet")
        yield "corner: refused %s in %s on %s" % (call.answer[1], state, by)
    if call.answer[0] == "job":
        yield from job_corners(c, call)
    if timed and elapsed(f, call.clock) is not None and limit(c, f) is not None:
        over = elapsed(f, call.clock) - limit(c, f)
        if over >= 0:
            yield "corner: elapsed %s timeout in %s" % ("equals" if over == 0 else "one more than" if over == 1 else " more than", state)
    if fired and f.state == SHARE_GATHER and sent_kind(call) in (1, 3) and f.message in f.records:
        waiting, new = f.records[f.message][1] != [], len(after.struck) > len(f.struck)
        yield "corner: retry, waiters %s, new strikes %s" % (str(waiting).lower(), str(new).lower())
    if call.name == "start" and sent_kind(call) is not None:
        yield "corner: start taken in " + state
    if call.name in PACKET_CALLS and not fired:
        packet = unhex(call.args["packet"])
        if verified(c, f, packet, call.args["verdict"] == "1"):
            yield "corner: kind %d reaches %s" % (packet[0], state)
            reached = {(1, IDLE): idle_corners, (2, NONCE_GATHER): nonce_corners, (4, SHARE_GATHER): share_corners}
            yield from reached.get((packet[0], f.state), lambda *_: ())(c, f, call, after, packet)


def job_corners(c, call):
    job = unhex(call.answer[1])
    keys = id_list(parts(job)[2])
    yield "corner: job whole " + ("true" if call.answer[2] == "whole=1" else "false")  # as the oracle counts: shares alone
    yield "corner: job of type %d" % job[1]
    if len(set(keys)) < len(keys):
        yield "corner: job with a key id twice"
    if len(set(keys)) < c.sign_threshold:
        yield "corner: job with fewer keys than sign_threshold"


def idle_corners(c, f, call, after, packet):
    if num(packet, 16, 8) == f.sign_id:
        yield "corner: Idle request with the current sign id"
    elif num(packet, 24, 8) == 0:
        yield "corner: Idle request with iteration 0"


def nonce_corners(c, f, call, after, packet):
    if call.answer[0] == "refused" and call.answer[1] in ("16", "17", "18"):
        return
    why = dropped(c, f, packet)
    if why is not None:
        yield "corner: response dropped, " + SILENT[why]
        return
    message = "x" + parts(packet)[0].hex()
    if len(after.records.get(message, ([], []))[0]) == len(f.records.get(message, ([], []))[0]):
        yield "corner: second response to a message"
    yield "corner: %d messages recorded" % len(after.records)
    if sent_kind(call) is not None:
        if f.message != after.message:
            yield "corner: kind 3 replaces the message"
        request = unhex(call.answer[1])
        if any(num(r, 16, 8) != num(request, 16, 8) for r in parts(request)[2:]):
            yield "corner: kind 3 with a nested sign id of its own"


def share_corners(c, f, call, after, packet):
    signer = num(packet, 4, 4)
    if f.message not in f.records:
        yield "corner: shares, no record for the current message"
        return
    waiters = f.records[f.message][1]
    if signer not in waiters:
        yield "corner: shares of a signer that is not waited for"
        return
    if str(signer) in f.shares and call.answer[0] == "nothing":
        yield "corner: waiter's shares held already, last waiter " + str(len(waiters) == 1).lower()
    if after.shares.get(str(signer)) != f.shares.get(str(signer)) and num(packet, 24, 8) != f.iteration:
        yield "corner: shares taken with another iteration"
    if call.answer[:2] == ["refused", "22"] and len(waiters) == 1:
        yield "corner: refused 22 for the last waiter"


# --- finer features

def finer(c, f, call, after):
    """Combinations that the oracle's stats do not count by themselves."""
    state, answer = STATES[f.state], answer_name(call.answer)
    yield "in %s, type %d: %s answers %s" % (state, f.type, call.name, answer)
    if after.sign_id == 0 and f.sign_id == LARGEST and call.name == "start" and call.args["sign_id"] == "none":
        yield "the sign id wraps: " + answer
    if after.iteration == 0 and f.iteration == LARGEST and sent_kind(call) == 1:
        yield "the iteration wraps: " + call.name
    if answer == "refused 10" and f.iteration != after.iteration:
        yield "10 on an Idle packet leaves iteration " + ("2^64 - 1" if after.iteration == LARGEST else "other")
    if call.name == "process" and fires(c, f, call.clock):
        yield "kind %d is left aside for a timeout: %s" % (int(call.args["packet"][1:3], 16), answer)
    if call.name in PACKET_CALLS:
        yield from packet_features(c, f, call, after)
    if call.name in ("start", "can_move_to") and f.type == 3 and call.args["type"] == "3":
        yield "%s, roots %s: %s" % (call.name, "equal" if call.args["root"] == f.root else "differ", answer)
    if call.name == "can_move_to":
        same = (int(call.args["type"]), call.args["root"]) == (f.type, f.root)
        yield "move %s to %s, types %s" % (state, STATES[int(call.args["state"])], "equal" if same else "differ")
    if call.name in ("group_key", "coordinator_key"):
        yield "%s %s in %s" % (call.name, call.args["held"], state)
    if call.name in ("reset", "commission"):
        yield "%s in %s, %s" % (call.name, state, "some struck" if f.struck else "nobody struck")
    if call.name == "dkg_results":
        ended = listed(call.args["ended"])
        yield "results, %d ended, repeats %s, largest id %s" % (len(ended), len(set(ended)) < len(ended), after.dkg_id == LARGEST)
    yield from written_features(call, after)


def packet_features(c, f, call, after):
    packet = unhex(call.args["packet"])
    kind, state, answer = packet[0], STATES[f.state], answer_name(call.answer)
    yield "%s of kind %d, verify %d, verdict %s in %s: %s" % (call.name, kind, c.verify, call.args["verdict"], state, answer)
    if kind == 2:
        message, keys, nonces = parts(packet)
        sizes = (("message", len(message), (0, 255, 256)), ("keys", len(keys) // 4, (0, 16)), ("nonces", len(nonces) // 66, (0, 16)))
        for name, n, limits in sizes:
            if n in limits:
                yield "response's %s %d in %s: %s" % (name, n, state, answer)
        if len(keys) // 4 != len(nonces) // 66 and len(after.records) + len(f.records) > 0:
            yield "nonces %s than keys: %s" % ("more" if len(nonces) // 66 > len(keys) // 4 else "fewer", answer)
        if len(set(id_list(keys))) < len(keys) // 4:
            yield "response with a key twice: " + answer
        if f.struck:
            yield "response while some are struck: " + answer
    if kind == 4:
        yield "%s shares in %s: %s" % ({0: "no", 1: "one", 16: "16"}.get(len(parts(packet)), "some"), state, answer)
    if kind == 4 and f.state == SHARE_GATHER and f.message in f.records and not f.records[f.message][1]:
        yield "shares where nobody waits: " + answer
    if kind == 1 and f.state == IDLE and num(packet, 8, 8) != f.dkg_id:
        yield "Idle request of another dkg id: " + answer


def written_features(call, after):
    if call.answer[0] not in ("packet", "job"):
        return
    s = unhex(call.answer[1])
    yield "written: kind %d of type %d, %s struck" % (s[0], s[1], "some" if after.struck else "nobody")
    if s[0] in (1, 3, 32):
        n = len(parts(s)[0])
        yield "written: kind %d, message of %s bytes" % (s[0], n if n in (0, 255, 256) else "other")
    if s[0] == 3:
        yield "written: kind 3 with %d responses" % (len(parts(s)) - 2)
    if s[0] == 32:
        yield "written: job whole %s, %s" % (call.answer[2], call.answer[3])
        yield "written: job of %s shares" % min(len(parts(s)) - 4, 12)
    if s[0] in (33, 34):
        yield "written: kind %d, lists of %s" % (s[0], " and ".join(str(len(p) // 4) for p in parts(s)))


def configuration_features(c):
    for state, t in c.timeouts.items():
        yield "timeout %s in %s" % (t if t in (None, 0, 1, LARGEST) else "some", STATES[state])
    yield "%d signers" % len(c.signers)
    yield "largest key set %s" % max([len(k) for k in c.signers.values() if k is not None], default=None)
    yield "threshold %s num_keys" % ("above" if c.threshold > c.num_keys else "0" if c.threshold == 0 else "within")
    yield "sign_threshold %s num_keys" % ("above" if c.sign_threshold > c.num_keys else "0" if c.sign_threshold == 0 else "within")
    yield "num_keys %s" % ("2^32 - 1" if c.num_keys == 2 ** 32 - 1 else "other")


def features(calls):
    """For each call what the stats count of it, and the finer features."""
    c = before = None
    for call in calls:
        after = Fields(call.fields)
        counted = ["call: " + call.name, "answer: " + answer_name(call.answer), "state after: " + STATES[after.state]]
        more = []
        if before is not None:
            counted += corners(c, before, call, after)
            more += finer(c, before, call, after)
        if call.name == "commission":
            c = Config(call.args)
            more += configuration_features(c)
        before = after
        yield counted, more


# --- choosing

def costs(call):
    """Bytes of a call's lines in script and output, about."""
    data = len(call.args.get("packet", "")) + len(call.args.get("message", "")) + len(call.args.get("root", ""))
    told = 0
    if call.answer[0] in ("packet", "job"):
        s = unhex(call.answer[1])
        told = 120 + (sum(2 * len(parts(p)[0]) + 100 for p in parts(s)[2:]) if s[0] == 3 else 0) + 2 * len(parts(s)[0])
    return 60 + 3 * data // 2, 120 + told


def pool(oracle):
    """Of each sequence the features and costs of its calls, up to a call whose line would be too long."""
    found = []
    for seed in SEEDS:
        for _, index, calls in generated(oracle, seed, PER_SEED):
            short = []
            for call in calls:
                if len("0000 ".join(script_line(call))) > LONGEST_LINE - 10:
                    break
                short.append(call)
            told = [(counted, set(more)) for counted, more in features(short)]
            found.append((seed, index, told, [costs(call) for call in short]))
    return found


def best_beginning(told, cost, wanted):
    """The beginning of a sequence with the most gain for its bytes: (gain by byte, calls)."""
    gain, paid, seen, best = 0.0, HEADING, Counter(), (0.0, 0)
    for at, (counted, more) in enumerate(told):
        for name in counted + sorted(more):
            if seen[name] < wanted[name]:
                gain += wanted.weight[name] * (wanted[name] - seen[name]) / wanted.full[name]
                seen[name] += 1
        paid += cost[at][0] + cost[at][1] // 2
        best = max(best, (gain / paid, at + 1))
    return best


class Wanted(dict):
    """How often each feature is still wanted; at first a number that grows with the rounds."""

    def __init__(self):
        super().__init__()
        self.full, self.weight = Counter(), {}

    def __missing__(self, name):
        return 0

    def more(self, names, n, weight):
        for name in names:
            self[name] = self[name] + n
            self.full[name] += n
            self.weight[name] = 10.0 if name.startswith(WEIGHTY) else weight


def ranking(found, wanted, taken):
    """The sequences not taken, the best beginning first."""
    ranked = [(tuple(-x for x in best_beginning(told, cost, wanted)), at) for at, (_, _, told, cost) in enumerate(found) if at not in taken]
    heapq.heapify(ranked)
    return ranked


def next_best(found, wanted, ranked):
    """Takes the best sequence off the ranking. What is wanted only shrinks meanwhile, so an old rank is never too low."""
    while True:
        _, at = heapq.heappop(ranked)
        now = tuple(-x for x in best_beginning(*found[at][2:], wanted))
        if not ranked or (now, at) <= ranked[0]:
            return -now[0], -now[1], at
        heapq.heappush(ranked, (now, at))


def choose(found, stats, ours):
    wanted, taken, size = Wanted(), {}, [0, 0]
    ranked = None
    while len(taken) < SEQUENCES:
        if ranked is None:
            wanted.more(stats, 4, 10.0)
            wanted.more(ours, 2, 1.0)
            ranked = ranking(found, wanted, taken)
        gain, count, at = next_best(found, wanted, ranked)
        if gain == 0.0:
            ranked = None
            continue
        seed, index, told, cost = found[at]
        count = min(count + TAIL, len(told))
        size = [size[i] + sum(c[i] for c in cost[:count]) for i in (0, 1)]
        if size[0] > SCRIPT_BYTES or size[1] > OUTPUT_BYTES:
            break
        taken[at] = (seed, index, count)
        for counted, more in told[:count]:
            for name in counted + list(more):
                wanted[name] = max(0, wanted[name] - 1)
    return sorted(taken.values())


def write_list(oracle):
    found = pool(oracle)
    stats = sorted({name for _, _, told, _ in found for counted, _ in told for name in counted})
    ours = sorted({name for _, _, told, _ in found for _, more in told for name in more})
    taken = choose(found, stats, ours)
    with open("scripts/vectors.txt", "w") as f:
        f.write("# Seed, sequence, number of calls: chosen by choose_vectors.py from seeds %s, %d sequences each\n" % (
            " ".join(map(str, SEEDS)), PER_SEED))
        f.writelines("%d %d %d\n" % t for t in taken)
    counted, more = count(oracle)
    print("%d sequences, %d calls" % (counted["sequences"], counted["calls"]))
    for name, of, there in (("of stats", stats, counted), ("of our own", ours, more)):
        missed = [n for n in of if not there[n]]
        print("features %s: %d, not reached: %d %s" % (name, len(of), len(missed), "".join("\n    " + n for n in missed)))


def count(oracle):
    """How often the list's calls reach what the stats count, and the finer features."""
    counted, more = Counter(), Counter()
    for _, _, calls in chosen_calls(oracle, chosen()):
        counted["sequences"] += 1
        for names, finer_names in features(calls):
            counted["calls"] += 1
            counted.update(names)
            more.update(set(finer_names))
    return counted, more


def agree(oracle):
    """Our counts of the stats' features against the oracle's own."""
    mine = Counter()
    for _, _, calls in generated(oracle, 1, 1000):
        mine["sequences"] += 1
        for counted, _ in features(calls):
            mine["calls"] += 1
            mine.update(counted)
    run = subprocess.run([oracle, "stats", "1", "1000"], capture_output=True, text=True, check=True)
    theirs = Counter({line[12:]: int(line[:10]) for line in run.stdout.splitlines()})
    different = sorted(n for n in mine | theirs if mine[n] != theirs[n])
    print("%d counts, %d differ" % (len(theirs), len(different)))
    for name in different:
        print("%8d here, %8d there  %s" % (mine[name], theirs[name], name))
    return not different


def main():
    if len(sys.argv) != 3 or sys.argv[1] not in ("choose", "reached", "agree"):
        sys.exit(__doc__)
    if sys.argv[1] == "choose":
        write_list(sys.argv[2])
    elif sys.argv[1] == "agree":
        sys.exit(not agree(sys.argv[2]))
    else:
        for of in count(sys.argv[2]):
            print("".join("%10d  %s\n" % (n, name) for name, n in sorted(of.items())))


if __name__ == "__main__":
    main()
