#!/usr/bin/env python3
"""Writes crates/site/stdin and crates/site/stdout: the calls of the host's test program for Site, and what it must print.

The model (site_model.py) is written from documents 01 and 02 and shares no code with the crates. Run from the repository's root; both
files are committed, so nothing needs this script to pass.
"""
import random
import re

from bench import G, STATES, le, num, packet, response, share
from site_model import PAIR, U64, WORKED, ZERO, Site, configured

POINT = bytes([2] + [9] * 32)
ALL = set(range(1, 26))
# the worked configuration without signer 0, verified
STRANGER = configured([(1, [2, 3]), (2, [4])], verify=1)


def with_signer(s, i):
    return s[:4] + le(4, i) + s[8:]


def worked(s):
    """01, "Worked rounds"."""
    s.ready("P: elapsed 10 nothing, 11 fires", clock=100)
    s.process("0 answers", 101, s.answers(0))
    s.timeout("nonces, elapsed 10", 110)
    s.timeout("nonces, elapsed 11", 111)
    s.process("1 answers in time", 105, s.answers(1))
    s.timeout("shares, elapsed 10", 115)
    s.timeout("shares, elapsed 11", 116)

    s.ready("P: 0 and 2 answer, 2 keys: gathering; then 1", clock=100)
    for i in (0, 2, 1):
        s.process("%d answers" % i, 101, s.answers(i))
    s.to_shares("P: 0 and 1 answer, 3 keys: request leaves")
    s.to_shares("the round goes on to a signature")
    for i in (1, 0):
        s.process("%d shares" % i, 103, s.shares(i))
    s.aggregated("success", 1)

    s.ready("P: 1 lists 3, 2, 3: recorded; lists 2: nothing", clock=100)
    s.process("1 lists 2", 101, s.answers(1, keys=[2]))
    s.process("0 answers", 101, s.answers(0))
    s.process("1 lists 3, 2, 3", 101, s.answers(1, keys=[3, 2, 3]))

    s.ready("P: D = G: nothing; D with first byte 03, G otherwise: recorded", clock=100)
    s.process("1 answers", 101, s.answers(1))
    s.process("0, D = G", 101, s.answers(0, nonces=[G + POINT]))
    s.process("0, E = G", 101, s.answers(0, nonces=[POINT + G]))
    s.process("0, D the identity", 101, s.answers(0, nonces=[bytes(33) + POINT]))
    s.process("0, the second nonce's E the identity", 101, s.answers(0, nonces=[POINT + POINT, POINT + bytes(33)]))
    s.process("0, D with first byte 03", 101, s.answers(0, nonces=[b"\3" + G[1:] + POINT]))

    s.to_shares("P: after 0 and 1, only 0 silent: 4 - 1 = 3, retry")
    s.process("1 shares", 103, s.shares(1))
    s.timeout("late", 113)
    s.to_shares("P: only 1 silent: 2, InsufficientSigners")
    s.process("0 shares", 103, s.shares(0))
    s.timeout("late", 113)
    s.timeout("late again", 114)

    s.ready("P: nonce timeout, no response: 12", clock=100)
    s.timeout("late", 111)
    s.process("late, with a packet", 111, s.answers(0))
    s.process_message("process_message still takes it", 111, s.answers(0))
    s.timeout("late, one response", 111)

    s.to_shares("P: 1 shares only key 2: 22; then 0's good shares: job, whole no")
    s.process("1 shares key 2", 103, s.shares(1, [2]))
    s.process("0 shares", 103, s.shares(0))
    s.aggregated("failed", 0)

    s.ready("P: Idle request, iteration 0: sent with 0")
    s.process("request with iteration 0", 100, s.request(b"a", 5, 0))
    s.ready("P: with no group key 10, and 2^64 - 1 is left")
    s.key("group key cleared", 1, 0)
    s.process("request with iteration 0", 100, s.request(b"a", 5, 0))

    s.ready("P: 0 answers four messages, then a fifth: 19", clock=100)
    for m in (b"a", b"b", b"", b"d", b"e", b"b"):
        s.process("0 answers '%s'" % m.decode(), 101, s.answers(0, m))
    s.process("1 answers a fifth message", 101, s.answers(1, b"e"))
    s.process("1 answers one that is recorded", 101, s.answers(1, b"b"))


def limits(s):
    """Each limit at it and one past it."""
    for n in (256, 257):
        s.ready("a message of %d bytes" % n)
        s.start("start", 100, bytes([n % 251] * n))
        s.process("Idle request", 100, s.request(bytes(n), 5, 1))
        s.process("0 answers", 101, s.answers(0, bytes(n)))
        s.process("1 answers", 101, s.answers(1, bytes(n)))
    s.heading("10 signers, 11 is 1; 12 are not run")
    for n in (10, 11, 12, 10):
        s.commission("%d signers" % n, configured([(3 * i, [i]) for i in range(n)]))
    s.commission("11 signers: 1 before 2", configured([(i, [0, 0]) for i in range(11)]))
    s.commission("an id twice", configured([(4, [1]), (4, [2])]))
    s.key("after a refused commissioning: 4", 1, 1)
    s.heading("a set of 16, 17 is 2; 18 are not run")
    for n in (16, 17, 18, 16):
        s.commission("a set of %d" % n, configured([(1, list(range(n)))], 20))
    s.commission("a key twice", configured([(1, [2, 3, 2])]))
    s.commission("a key of two signers", configured([(1, [2, 3]), (2, [3, 4])]))
    s.commission("2 before 3", configured([(1, [2, 2]), (2, [3])], 1))
    s.heading("sizes 4, 5 is 3")
    s.commission("sizes 4", configured([(0, [1]), (1, [2, 3]), (2, [4])], 4))
    s.commission("sizes 5", configured([(0, [1]), (1, [2, 3]), (2, [4, 5])], 4))
    s.commission("sizes 4 and no set", configured([(0, [1]), (1, [2, 3]), (2, [4]), (3, None)], 4))
    s.commission("no signer", configured([], 0))
    s.commission("an empty set and no set", configured([(0, []), (1, None)], 0))

    s.ready("buffer of 19,232, 19,231 is 7")
    s.lend("19,231 lent", room=19231)
    s.start("start", 100, b"a")
    s.process("process", 100, s.request(b"a", 5, 1))
    s.process_message("process_message", 100, s.request(b"a", 5, 1))
    s.timeout("process_timeout", 100)
    s.process("7 before 8", 100, b"")
    s.start("7 before 9", 100, bytes(257))
    s.key("keys are not asked 7", 1, 1)
    s.results("results are not asked 7", 8, [0])
    s.move("the move question is not asked 7", "NonceRequest")
    s.aggregated("the aggregator's answer is asked 6", 1)
    s.arrivals("the query of arrivals")
    s.reset("reset is not asked 7")
    s.lend("19,232 lent")
    s.start("start", 100, b"a")

    s.ready("store of 52,224, 52,223 is 4", clock=100)
    s.lend("52,223 lent", 52223)
    s.key("held key", 1, 0)
    s.results("results", 8, [0])
    s.move("move question", "Idle")
    s.start("start", 100, b"a")
    s.process("process", 100, s.answers(0))
    s.process_message("process_message", 100, s.answers(0))
    s.timeout("process_timeout", 100)
    s.aggregated("aggregator's answer", 1)
    s.reset("reset")
    s.arrivals("the query of arrivals")
    s.lend("nothing lent", 0, 0)
    s.timeout("4 before 7", 100)
    s.lend("all lent")
    s.process("0 answers", 100, s.answers(0))
    s.lend("more of the store than there is", 52225)
    s.lend("more of the buffer than there is", 52224, 19233)
    s.lend("the largest number", 2 ** 32 - 1, 2 ** 32 - 1)
    s.process("1 answers", 100, s.answers(1))

    ten = [(i, [i]) for i in range(10)]
    s.ready("10 ended, 11 is 25", configured(ten))
    s.results("10 ended", 8, list(range(10)))
    s.results("11 ended, of them one twice", 9, list(range(10)) + [0])
    s.results("10 ended, all the same", 9, [3] * 10)
    s.results("16 ended", 9, [3] * 16)
    s.results("17 ended", 9, [3] * 17)
    s.results("nobody ended", 9, [])
    s.results("one is not configured", 10, [1, 10])

    s.ready("16 keys, nonces and shares of 10 signers: the largest packets", configured(
        [(i, list(range(16 * i, 16 * i + 16))) for i in range(10)], threshold=160), 100, bytes([7] * 256), 3, bytes(range(32)))
    for i in range(9, -1, -1):
        s.process("%d answers" % i, 101, s.answers(i, bytes([7] * 256), nonces=[bytes([2] * 33) + bytes([3] * 33)] * 16))
    for i in range(10):
        s.process("%d shares" % i, 102, packet(4, [share(k, [k], bytes(32)) for k in range(16 * i, 16 * i + 16)], 0, i, s.ids()))
    s.aggregated("success", 1)
    for n in (16, 17):
        s.ready("%d in a response's lists" % n, configured([(0, list(range(16))), (1, [20])], threshold=17), 100)
        s.process("key ids", 101, s.answers(0, keys=list(range(16)) + [15] * (n - 16), nonces=[]))
        s.process("nonces", 101, s.answers(1, nonces=[POINT + POINT] * n))
        s.process("keys of shares", 102, packet(4, [share(1, list(range(8))), share(2, list(range(8, n)))], 0, 0, s.ids()))
        s.process("shares", 102, packet(4, [share(i, [20] if i == 0 else []) for i in range(n)], 0, 1, s.ids()))


def uncommissioned(s):
    s.heading("before the first commissioning every call is 4")
    s.key("held key", 0, 1)
    s.results("results", 7, [])
    s.move("move question", "Idle")
    s.start("start", 100, b"a")
    s.process("process", 100, packet(5, [], ids=(7, 0, 0)))
    s.process_message("process_message", 100, packet(5, [], ids=(7, 0, 0)))
    s.timeout("process_timeout", 100)
    s.aggregated("aggregator's answer", 1)
    s.reset("reset")
    s.arrivals("the query of arrivals")


def packets(s):
    """8 and 9, and what a packet of each kind does in each state."""
    s.ready("8 and 9 come before the timeout", clock=100)
    good = s.answers(0)
    s.process("late, nothing at all", 120, b"")
    s.process("late, kind 0", 120, packet(0, []))
    s.process("late, kind 8", 120, packet(8, []))
    s.process("late, a byte more", 120, good + b"\0")
    s.process("late, a pair more named", 120, good[:2] + le(2, num(good, 2, 2) + 1) + good[4:])
    s.process("late, key ids of 7 bytes", 120, packet(2, [b"a", bytes(7), b""], 0, 0, s.ids()))
    s.process("late, a message of 257", 120, s.answers(0, bytes(257)))
    s.process("8 before 9: a malformed nested packet behind a message of 300", 120, packet(3, [bytes(300), b"", good[:-1]]))
    s.process("late, a good one", 120, good)
    s.process("in time", 110, good)
    quiet = {
        "kind 1": packet(1, [b"a", b""], 0, 0, (7, 9, 9)), "kind 3": packet(3, [b"a", b"", good], 0, 0, (7, 1, 1)), "kind 4": packet(4, [share(1, [1])], 0, 0, (7, 1, 1)), "kind 5": packet(5, [], ids=(9, 0, 0)),
        "kind 6": packet(6, [], signer=4, ids=(7, 0, 0)), "kind 7": packet(7, [], ids=(7, 0, 0)), "kind 2": packet(2, [b"a", b"", b""], 0, 0, (9, 9, 9))}
    s.ready("what the state does not gather: Idle")
    for name in ("kind 2", "kind 3", "kind 4", "kind 6", "kind 7"):
        s.process(name, 100, quiet[name])
    s.process("DkgBegin with the current dkg id", 100, packet(5, [], ids=(7, 0, 0)))
    s.process("DkgBegin with another: 15", 100, packet(5, [], ids=(8, 0, 0)))
    s.process_message("DkgBegin with another: 15, process_message", 100, packet(5, [], ids=(6, 0, 0)))
    s.process("a request with the current sign id", 100, s.request(b"zzz", 0, 9, 3, bytes(32), 99))
    s.ready("what the state does not gather: NonceGather", clock=100)
    for name in ("kind 1", "kind 3", "kind 4", "kind 5", "kind 6", "kind 7"):
        s.process(name, 100, quiet[name])
    s.to_shares("what the state does not gather: SigShareGather")
    for name in ("kind 1", "kind 2", "kind 3", "kind 5", "kind 6", "kind 7"):
        s.process(name, 100, quiet[name])

    s.ready("verification: 13 and 14", dict(WORKED, verify=1), 100)
    s.process("no coordinator key: 13", 101, s.answers(0))
    s.process("13 before 14", 101, s.answers(9), 0)
    s.timeout("a timeout is not asked 13", 101)
    s.key("coordinator key held", 0, 1)
    s.process("verdict bad: 14", 101, s.answers(0), 0)
    s.process("a signer who is not configured: 14", 101, s.answers(9))
    s.process("kind 6 of such a signer: 14", 101, packet(6, [], signer=9, ids=(7, 0, 0)))
    s.process("kind 7 is the coordinator's", 101, packet(7, [], ids=(7, 0, 0)))
    s.process("kind 7, verdict bad", 101, packet(7, [], ids=(7, 0, 0)), 0)
    s.process("0 answers", 101, s.answers(0))
    s.process_message("1 answers", 101, s.answers(1))
    s.key("coordinator key cleared", 0, 0)
    s.process("shares: 13", 102, s.shares(0))
    s.process("late: no 13", 120, s.shares(0))
    s.ready("who sealed it, kind by kind: 0 stands in the signer's place and is not configured", STRANGER, 100)
    s.key("coordinator key held", 0, 1)
    for name in sorted(quiet):
        s.process(name + " by process", 101, with_signer(quiet[name], 0))
        s.process_message(name + " by process_message", 101, with_signer(quiet[name], 0))
    s.process("kind 6 of a configured signer", 101, with_signer(quiet["kind 6"], 2))
    s.ready("no verification: verdict and coordinator key do not matter", clock=100)
    s.process("0 answers, verdict bad", 101, s.answers(0), 0)
    s.process("1 answers, verdict bad", 101, s.answers(1), 0)


def questions(s):
    """What the groups above do not ask, and the order of the questions."""
    s.ready("start: 4, 5, 7, 9, 10, 11")
    s.key("group key cleared", 1, 0)
    s.start("9 before 10", 100, bytes(257))
    s.start("10 changes nothing", 100, b"x", sign=77)
    s.key("group key held", 1, 1)
    s.start("start", 100, b"a")
    s.start("11, an id given: message and sign id are stored", 100, b"b", sign=77)
    s.start("11, no id: the sign id grows", 100, b"c")
    s.timeout("late, the new message has no record: 12", 111)
    s.key("group key cleared", 1, 0)
    s.start("10 before 11", 100, b"d")
    s.ready("the sign id wraps, the iteration too")
    s.start("the largest id", 100, b"a", sign=U64 - 1)
    s.reset("reset")
    s.start("next is 0", 100, b"a")
    s.reset("reset")
    s.process("iteration 2^64 - 1", 100, s.request(b"a", 5, U64 - 1))
    s.reset("reset")
    s.start("the iteration wraps to 0", 100, b"a")

    s.ready("16, 17, 18 in their order", clock=100)
    dkg, sign, iteration = s.ids()
    s.process("all wrong", 101, s.answers(0, ids=(1, 2, 3)))
    s.process("dkg id", 101, s.answers(0, ids=(U64 - 1, sign, iteration)))
    s.process("sign and iteration", 101, s.answers(0, ids=(dkg, 2, 3)))
    s.process("iteration", 101, s.answers(0, ids=(dkg, sign, 0)))
    s.process("16 of a signer who is not configured", 101, s.answers(9, keys=[], ids=(1, 2, 3)))
    s.ready("silently nothing", configured([(0, [1]), (1, [2, 3]), (2, [4]), (3, None), (4, [])], 4, 3, 4), 100)
    s.process("not configured", 101, s.answers(9, keys=[]))
    s.process("no key set entry, no keys", 101, s.answers(3))
    s.process("an empty set, one key", 101, s.answers(4, keys=[4]))
    s.process("a set too small", 101, s.answers(1, keys=[2]))
    s.process("a set too large", 101, s.answers(0, keys=[1, 2]))
    s.timeout("nobody is recorded: 12", 111)
    s.process("an empty set, no keys: recorded", 101, s.answers(4))
    s.process("twice", 101, s.answers(4))
    s.timeout("4 waits", 111)
    s.process("0 answers, no nonces", 101, s.answers(0, nonces=[]))
    s.process("2 answers, five nonces", 101, s.answers(2, nonces=[POINT + POINT] * 5))
    s.process("1 answers: request leaves", 101, s.answers(1))
    s.process("4 shares nothing", 102, s.shares(4))
    s.ready("key generation not ended")
    s.results("1 only", 7, [1])
    s.start("start", 100, b"a")
    s.process("0 answers", 101, s.answers(0))
    s.process("1 answers", 101, s.answers(1))
    s.timeout("1 waits", 111)

    s.to_shares("16 and 17 of shares, the iteration never")
    dkg, sign, iteration = s.ids()
    s.process("2 does not wait, all wrong: nothing", 103, s.shares(2, ids=(1, 2, 3)))
    s.process("dkg id: a result", 103, s.shares(0, ids=(1, 2, 3)))
    s.process("sign id", 103, s.shares(0, ids=(dkg, 2, 3)))
    s.process("another iteration is taken", 103, s.shares(0, ids=(dkg, sign, 99)))
    s.process("twice: nothing", 103, s.shares(0))
    s.process("1 shares, keys repeated", 103, packet(4, [share(1, [3, 2, 3]), share(9, []), share(1, [2])], 0, 1, s.ids()))
    s.heading("a job is out: 5; the aggregator's answer only then")
    s.key("held key", 1, 1)
    s.results("results", 8, [0])
    s.move("move question", "Idle")
    s.start("start", 200, b"b")
    s.process("process", 200, s.shares(0))
    s.process_message("process_message", 200, b"")
    s.timeout("process_timeout", 200)
    s.arrivals("the query of arrivals")
    s.lend("19,231 lent: 5 before 7", room=19231)
    s.timeout("process_timeout", 200)
    s.lend("all lent")
    s.aggregated("failed: 23", 0)
    s.aggregated("6", 1)
    s.timeout("nobody waits, late: retry", 200)
    s.aggregated("6", 0)

    s.to_shares("22: too many, too few, none; the waiter is removed")
    s.process("0 shares two keys", 103, s.shares(0, [1, 2]))
    s.process("0 again", 103, s.shares(0))
    s.process("1 shares none", 103, s.shares(1, []))
    s.timeout("nobody waits and no job is out: retry", 113)
    s.ready("24 and 25", clock=100)
    s.results("gathering: 24", 8, [0])
    s.results("24 before 25", 8, [9])
    s.reset("reset")
    s.results("25", 8, [0, 9])
    s.results("taken", 8, [2, 0, 2])
    s.start("start", 100, b"a")
    for i in (0, 1, 2):
        s.process("%d answers" % i, 101, s.answers(i))


def moves(s):
    s.ready("the move question in Idle")
    for name in STATES:
        s.move("to %s" % name, name)
    s.move("to NonceRequest of type 3", "NonceRequest", 3, bytes(range(32)))
    s.ready("in NonceGather of type 1", clock=100, type_=1)
    for name in STATES:
        s.move("to %s of type 1" % name, name, 1)
    for name in STATES[11:]:
        s.move("to %s of type 2" % name, name, 2)
    root = bytes(range(32))
    s.to_shares("in SigShareGather of type 3", type_=3, root=root)
    for name in STATES:
        s.move("to %s, same root" % name, name, 3, root)
    for name in STATES[11:]:
        s.move("to %s, another root" % name, name, 3, root[:31] + b"\0")
        s.move("to %s of type 2" % name, name, 2, root)
    s.to_shares("in SigShareGather of type 2: the bytes beside are no root", type_=2, root=root)
    for name in STATES[11:]:
        s.move("to %s of type 2" % name, name, 2, bytes(32))


def types(s):
    root = bytes(range(1, 33))
    for t, beside in ((0, ZERO), (1, root), (2, root), (3, root)):
        s.to_shares("a round of type %d" % t, message=b"\xff\x00", type_=t, root=beside)
        for i in (0, 1):
            s.process("%d shares" % i, 103, s.shares(i))
        s.aggregated("success", 1)
        s.process("an Idle request of type %d" % t, 104, s.request(b"b", 50, 9, t, root if t == 3 else b""))
        s.timeout("late: 12", 200)
    s.to_shares("a start while shares are gathered is taken where type and root are the state's", type_=3, root=root)
    s.start("another root: 11", 103, b"b", 3, root[:31] + b"\0")
    s.start("another type: 11", 103, b"c", 2, root)
    s.start("the same: taken", 103, b"d", 3, root)
    s.process("0 answers", 104, s.answers(0, b"d"))


def corners(s):
    s.to_shares("a refused start while shares are gathered strikes signers who answered", PAIR)
    s.start("another type, no id: 11", 103, b"a", 1)
    s.process("0 shares with the request's ids: 17", 104, s.shares(0, ids=(7, 1, 1)))
    s.process("1 shares with the request's ids: 17", 104, s.shares(1, ids=(7, 1, 1)))
    s.timeout("both are struck", 113)
    s.reset("reset keeps them")
    s.to_shares("a refused start of a message without a record", PAIR)
    s.start("another type: 11", 103, b"z", 1, sign=1)
    s.process("0 shares: nothing", 104, s.shares(0))
    s.timeout("late: 12", 113)
    s.process("late, with a packet: 12", 113, s.shares(0))

    s.ready("shares are held already: no job although nobody waits", PAIR, 100)
    s.process("0 answers b", 101, s.answers(0, b"b"))
    s.process("0 answers a", 101, s.answers(0))
    s.process("1 answers a", 101, s.answers(1))
    s.process("0 shares", 102, s.shares(0))
    s.start("b with another type, id 1: 11", 102, b"b", 1, sign=1)
    s.process("0 shares again", 103, s.shares(0))
    s.timeout("late, nobody waits", 113)

    s.ready("shares go on for the new message: a job of fewer keys", configured([(0, [1]), (1, [2])], threshold=2), 100)
    s.process("0 answers b", 101, s.answers(0, b"b"))
    s.process("0 answers a", 101, s.answers(0))
    s.process("1 answers a", 101, s.answers(1))
    s.start("b with another type, id 1: 11", 102, b"b", 1, sign=1)
    s.process("0 shares: a job of one key", 103, s.shares(0))
    s.aggregated("success", 1)

    s.ready("responses of one record with ids of their own", clock=100)
    s.process("0 answers under sign id 1", 101, s.answers(0))
    s.start("11, sign id 9", 101, b"q", sign=9)
    s.process("1 answers under sign id 9: the request nests both", 101, s.answers(1))
    s.process("0 shares", 102, s.shares(0))
    s.process("1 shares", 102, s.shares(1))
    s.aggregated("success", 1)

    s.ready("10 in NonceGather: the record and the message stay", clock=100)
    s.process("0 answers b", 101, s.answers(0, b"b"))
    s.key("group key cleared", 1, 0)
    s.process("1 answers b: 10", 101, s.answers(1, b"b"))
    s.timeout("late: b's waiters", 111)
    s.key("group key held", 1, 1)
    s.process("1 again: nothing", 102, s.answers(1, b"b"))
    s.process("2 answers b: request leaves", 102, s.answers(2, b"b"))

    s.ready("the answered message replaces the current one; retries use it", clock=100)
    s.process("1 answers b", 101, s.answers(1, b"b"))
    s.process("0 answers b", 101, s.answers(0, b"b"))
    s.process("1 shares", 102, s.shares(1))
    s.timeout("late: 0 is struck, retry with b", 112)
    s.process("0 answers, struck", 113, s.answers(0, b"b"))
    s.process("1 answers", 113, s.answers(1, b"b"))
    s.process("2 answers", 113, s.answers(2, b"b"))

    s.to_shares("after the aggregator's failure nobody waits; late: retry without the group key")
    for i in (0, 1):
        s.process("%d shares" % i, 103, s.shares(i))
    s.aggregated("failed", 0)
    s.process("0 shares again", 104, s.shares(0))
    s.key("group key cleared", 1, 0)
    s.process("late: the retry does not ask for the group key", 113, s.shares(0))
    s.process("0 answers", 114, s.answers(0))
    s.process("1 answers: 10", 114, s.answers(1))

    s.to_shares("records and clocks stay after success")
    for i in (0, 1):
        s.process("%d shares" % i, 103, s.shares(i))
    s.aggregated("success", 1)
    s.timeout("Idle has no timeout", 999)
    s.process("0 shares in Idle", 104, s.shares(0))
    s.results("new results", 8, [0, 1, 2])
    s.start("the next round", 200, b"a")
    s.timeout("its own clock, elapsed 10", 210)
    s.process("0 answers", 210, s.answers(0))
    s.process("1 answers", 210, s.answers(1))
    s.timeout("elapsed 10", 220)

    s.ready("a clock that goes back counts as elapsed 0", clock=100)
    s.process("0 answers at 0", 0, s.answers(0))
    s.timeout("at 0", 0)
    s.process("1 answers at 2^64 - 1: late", U64 - 1, s.answers(1))
    s.process_message("1 answers, process_message", U64 - 1, s.answers(1))
    s.timeout("shares since 2^64 - 1, at 5", 5)

    for nonce, sign in ((None, None), (0, 0)):
        s.ready("timeouts of %s" % nonce, dict(WORKED, timeouts=(1, 1, 1, nonce, sign)), 100)
        s.process("0 answers", 100, s.answers(0))
        s.timeout("at 100", 100)
        s.timeout("at 101", 101)
        s.process_message("1 answers", 101, s.answers(1))
        s.timeout("at 102", 102)
    s.ready("each gathering has its own timeout", dict(WORKED, timeouts=(0, 0, 0, 5, 20)), 100)
    s.process("0 answers", 105, s.answers(0))
    s.process("1 answers", 105, s.answers(1))
    s.timeout("shares, elapsed 20", 125)
    s.timeout("shares, elapsed 21", 126)
    s.timeout("nonces again, elapsed 5", 131)
    s.timeout("nonces again, elapsed 6: 12", 132)

    two = [(0, [1]), (1, [2]), (2, [3])]
    s.ready("two thresholds: sign_threshold ends the gathering", configured(two, threshold=3, sign_threshold=2), 100)
    s.process("0 answers", 101, s.answers(0))
    s.process("1 answers: request leaves", 101, s.answers(1))
    s.process("0 shares", 102, s.shares(0))
    s.timeout("threshold limits exclusion", 112)
    s.ready("sign_threshold 0: the first answer suffices", configured(two, threshold=0, sign_threshold=0), 100)
    s.process("2 answers", 101, s.answers(2))
    s.timeout("late, threshold 0", 112)
    s.timeout("late", 123)
    s.ready("a key of two signers counts once", configured([(0, [1, 2]), (1, [2, 3]), (2, [4])], threshold=2, sign_threshold=4), 100)
    s.process("0 answers", 101, s.answers(0))
    s.process("1 answers: 3 different keys", 101, s.answers(1))
    s.process("2 answers: 4", 101, s.answers(2))
    s.process("2 shares", 102, s.shares(2))
    s.timeout("struck sets are summed: 5 - 4 < 2", 112)
    s.ready("a job's lists: as sent, ascending by signer", configured([(30, [1]), (4, [3, 2]), (17, [9])], threshold=4), 100)
    s.process("30 answers", 101, s.answers(30))
    s.process("4 lists 3, 2, 3, with one nonce", 101, s.answers(4, keys=[3, 2, 3], nonces=[POINT + POINT]))
    s.process("17 answers", 101, s.answers(17))
    s.process("17 shares", 102, s.shares(17))
    s.process("4 shares, one share of two keys", 102, packet(4, [share(77, [3, 2])], 0, 4, s.ids()))
    s.process("30 shares", 102, s.shares(30))
    s.aggregated("success", 1)
    s.to_shares("reset while a job is out drops it")
    for i in (0, 1):
        s.process("%d shares" % i, 103, s.shares(i))
    s.reset("reset")
    s.aggregated("6", 1)
    s.start("ids go on, the group key stays", 104, b"z")
    s.process("0 answers: key generation's end was forgotten", 105, s.answers(0, b"z"))
    s.timeout("late: 12", 120)


def ended(s, label, sets, lists, shared):
    """A round of signers 0, 1 ..: their key sets, the lists of their responses, the keys of their shares."""
    keys = set().union(*sets)
    s.ready(label, configured(list(enumerate(sets)), threshold=len(keys)), 100)
    for i, keys in enumerate(lists):
        s.process("%d lists %s" % (i, keys), 101, s.answers(i, keys=keys))
    for i, keys in enumerate(shared):
        s.process("%d shares %s" % (i, keys), 102, s.shares(i, keys))
    s.aggregated("success, whatever the mark", 1)


def marks(s):
    """02, c): whole is yes exactly when every responder's shares are held and no key id occurs twice in the job's joined list."""
    pair, other = [[1], [2, 3]], [[1, 2], [2, 3]]
    ended(s, "1 lists 3, 2, 3: not whole", pair, [[1], [3, 2, 3]], pair)
    ended(s, "1 lists 2, 3: whole", pair, pair, pair)
    ended(s, "1 lists 2, 3 and shares 3, 2, 3: whole", pair, pair, [[1], [3, 2, 3]])
    ended(s, "a key of two signers, once in each list: not whole", other, other, other)
    three = [[1], [2], [1, 3]]
    ended(s, "a key of the first and the last of three: not whole", three, three, three)
    ended(s, "a signer without a key: whole", [[], [2, 3]], [[], [2, 3]], [[], [2, 3]])
    same = [[1], [257, 2 ** 24 + 1, 2 ** 32 - 255]]
    ended(s, "different keys that end in the same byte: whole", same, same, same)
    ended(s, "one of them listed twice: not whole", same, [[1], same[1] + [257]], same)
    ended(s, "the first key listed again by the last signer: not whole", [[1], [513, 257], [1, 769]], [[1], [513, 257], [769, 1]],
          [[1], [513, 257], [1, 769]])
    s.to_shares("shares missing and 1 lists 3, 2, 3: not whole", signers=(0,))
    s.process("1 lists [3, 2, 3]", 102, s.answers(1, keys=[3, 2, 3]))
    s.process("1 shares key 2: 22", 103, s.shares(1, [2]))
    s.process("0 shares", 103, s.shares(0))
    s.aggregated("failed", 0)


def came(s, *calls, message=b"a"):
    """Nonce responses: signer and clock reading of each."""
    for i, clock in calls:
        s.process("%d answers '%s' at %d" % (i, message.decode(), clock), clock, s.answers(i, message))


def arrivals_told(s):
    """02, e): responder ids ascending, and their readings, eight bytes each."""
    s.ready("arrivals: ids ascend, each with its reading")
    s.arrivals("commissioned, no round: 48 bytes")
    s.start("start", 100, b"a")
    s.arrivals("nobody answered: 48 bytes")
    came(s, (2, 101))
    s.arrivals("2: 60 bytes")
    came(s, (0, 103))
    s.arrivals("0 and 2: 72 bytes")
    s.ready("arrivals: the reading is the call's, whatever the start's", clock=100)
    came(s, (2, 90))
    s.arrivals("90, behind the start")
    s.process_message("0 answers at 2^64 - 1", U64 - 1, s.answers(0))
    s.arrivals("the greatest reading")
    s.ready("arrivals: eight different bytes, and the smallest reading", configured(WORKED["signers"], timeouts=(None,) * 5), 100)
    came(s, (0, 0x0102030405060708), (2, 0))
    s.arrivals("both")
    s.ready("arrivals: all readings alike", clock=100)
    came(s, (0, 101), (2, 101))
    s.arrivals("both at 101")
    ids = [70, 3, 2 ** 32 - 1, 0, 256, 65536, 9, 2 ** 24, 1, 8]
    s.ready("arrivals: ten signers, listed in no order", configured([(i, [n]) for n, i in enumerate(ids)], threshold=10), 100)
    for n, i in enumerate(ids[::-1][:9]):
        came(s, (i, 101 + n % 4))
    s.arrivals("nine: 156 bytes")
    came(s, (ids[0], 110))
    s.arrivals("ten: 168 bytes")


def arrivals_recorded(s):
    """What is recorded has a reading, the first one of each signer; what is not recorded has none."""
    s.ready("arrivals: a second response leaves the first reading", clock=100)
    came(s, (2, 101), (2, 102))
    s.process_message("2 answers again, other nonces", 103, s.answers(2, nonces=[POINT + POINT]))
    s.arrivals("2 at 101")
    s.ready("arrivals: late by process_message is recorded, late by process is not", clock=100)
    s.process_message("2 answers at 111", 111, s.answers(2))
    s.process("0 answers at 112: late", 112, s.answers(0))
    s.arrivals("2 at 111; the query tests no timeout")
    s.timeout("the timeout still fires", 113)
    s.arrivals("2 at 111 still")
    s.process_message("0 answers at 114", 114, s.answers(0))
    s.arrivals("0 at 114, 2 at 111")
    s.ready("arrivals: what is not recorded has no reading", dict(WORKED, verify=1), 100)
    s.process("13", 101, s.answers(0))
    s.key("coordinator key held", 0, 1)
    s.process("14", 101, s.answers(0), 0)
    for at, n in enumerate((16, 17, 18)):
        s.process("%d" % n, 101, s.answers(0, ids=tuple(x + (j == at) for j, x in enumerate(s.ids()))))
    s.process("D = G", 101, s.answers(0, nonces=[G + POINT]))
    s.process("1 lists 2", 101, s.answers(1, keys=[2]))
    s.process("8", 101, s.answers(0)[:-1])
    s.arrivals("nobody")
    came(s, (0, 104))
    s.process("0 shares while nonces are gathered", 105, s.shares(0))
    s.arrivals("0 at 104")
    s.ready("arrivals: key generation not ended, no key set, not configured", configured(WORKED["signers"] + [(3, None)], 4))
    s.results("0 and 3 ended", 7, [0, 3])
    s.start("start", 100, b"a")
    came(s, (2, 101), (0, 102), (3, 103), (9, 104))
    s.arrivals("0 at 102")


def arrivals_current(s):
    """The query tells of the current message alone."""
    s.ready("arrivals: the answered message replaces the current one", clock=100)
    came(s, (2, 101))
    came(s, (0, 102), message=b"b")
    s.arrivals("a: 2 at 101")
    came(s, (1, 103), message=b"b")
    s.arrivals("b: 0 at 102, 1 at 103")
    s.ready("arrivals: a start refused with 11 leaves its message", clock=100)
    came(s, (2, 101), message=b"b")
    came(s, (0, 102), (1, 103))
    s.arrivals("a: 0 at 102, 1 at 103")
    s.start("11, message b", 104, b"b", 1)
    s.arrivals("b: 2 at 101")
    s.start("11, a message without a record", 105, b"z", 1)
    s.arrivals("nobody")
    s.start("11, message a", 106, b"a", 1)
    s.arrivals("a: 0 at 102, 1 at 103")
    s.ready("arrivals: a message without a record is answered after 11", clock=100)
    came(s, (2, 101))
    s.start("11, message z", 102, b"z", sign=1)
    s.arrivals("nobody")
    came(s, (0, 103), message=b"z")
    s.arrivals("z: 0 at 103")
    texts = [bytes(256), bytes(255) + b"\1", bytes(255), b""]
    s.ready("arrivals: four messages that differ little, a fifth is 19", clock=100, message=texts[0])
    for n, text in enumerate(texts + [bytes(254)]):
        s.process("2 answers the message of %d bytes" % len(text), 101 + n, s.answers(2, text))
    for n, text in enumerate(texts[::-1] + [bytes(254)]):
        s.start("11, the message of %d bytes" % len(text), 106, text, 1)
        s.arrivals("its reading" if n < 4 else "nobody")
    s.ready("arrivals: 10 in NonceGather keeps the record, its reading and the message", clock=100)
    came(s, (0, 101), message=b"b")
    s.key("group key cleared", 1, 0)
    came(s, (1, 103), message=b"b")
    s.arrivals("b: 0 at 101, 1 at 103, no group key held")


def arrivals_kept(s):
    """Readings stay as long as their records."""
    s.to_shares("arrivals: kept while shares are gathered, and after InsufficientSigners", signers=())
    came(s, (0, 102), (1, 104))
    s.process("0 shares", 105, s.shares(0))
    s.process("0 answers again", 106, s.answers(0))
    s.arrivals("both")
    s.timeout("late: 1 is struck, too few", 115)
    s.arrivals("both, 1 struck")
    s.ready("arrivals: kept after 22, failure and success, in Idle too", clock=100)
    came(s, (0, 101), (1, 103))
    s.process("1 shares key 2: 22", 104, s.shares(1, [2]))
    s.arrivals("both after 22")
    s.process("0 shares: a job", 104, s.shares(0))
    s.arrivals("a job is out: 5")
    s.aggregated("failed", 0)
    s.arrivals("both after 23")
    s.to_shares("arrivals: success")
    for i in (0, 1):
        s.process("%d shares" % i, 103, s.shares(i))
    s.aggregated("success", 1)
    s.arrivals("Idle: both")
    s.results("results", 8, [2])
    s.key("group key cleared", 1, 0)
    s.start("10", 104, b"z")
    s.process("an Idle request: 10", 105, s.request(b"z", 9, 9))
    s.process("an Idle request with the current sign id", 106, s.request(b"z", 1, 9))
    s.process("DkgBegin with another dkg id: 15", 107, packet(5, [], ids=(9, 0, 0)))
    s.move("move question", "NonceRequest")
    s.timeout("no timeout", 999)
    s.arrivals("Idle: both, no key held")


def arrivals_cleared(s):
    """A nonce request, a reset and a commissioning clear the readings with their records."""
    s.to_shares("arrivals: a retry clears them")
    s.process("1 shares", 103, s.shares(1))
    s.timeout("late: 0 is struck, retry", 113)
    s.arrivals("nobody")
    came(s, (0, 114), (2, 115))
    s.arrivals("2 at 115; 0 is struck")
    s.to_shares("arrivals: a start while shares are gathered clears them")
    s.start("the same message", 103, b"a")
    s.arrivals("nobody")
    came(s, (2, 104), message=b"b")
    s.arrivals("nobody: b is not current")
    came(s, (1, 105))
    s.arrivals("1 at 105")
    for label, begin in (("a start", lambda: s.start("the same message", 104, b"a")),
                         ("an Idle request", lambda: s.process("the same message", 104, s.request(b"a", s.c.sign + 8, 9)))):
        s.to_shares("arrivals: success, then %s clears them" % label)
        for i in (0, 1):
            s.process("%d shares" % i, 103, s.shares(i))
        s.aggregated("success", 1)
        begin()
        s.arrivals("nobody")
        came(s, (2, 106))
        s.arrivals("2 at 106")
        s.reset("reset")
        s.arrivals("nobody after the reset")
        begin()
        s.arrivals("nobody")
    s.to_shares("arrivals: commissioning")
    s.arrivals("both")
    s.commission("commissioned", WORKED)
    s.arrivals("nobody")
    s.to_shares("arrivals: a refused commissioning")
    s.commission("3", configured([(0, [1, 2])], 1))
    s.arrivals("4")


def arrivals_asked(s):
    """The query passes the checks 4, 5 and 7."""
    s.ready("arrivals: buffer of 19,232, 19,231 is 7; store of 52,223 is 4", clock=100)
    came(s, (0, 101))
    for store, room in ((52224, 19231), (52223, 19232), (52223, 0), (0, 0), (52224, 60), (52224, 0), (52224, 19232)):
        s.lend("%d and %d lent" % (store, room), store, room)
        s.arrivals("asked")
    s.to_shares("arrivals: 4 before 5 before 7")
    for i in (0, 1):
        s.process("%d shares" % i, 103, s.shares(i))
    for store, room in ((52224, 19232), (52224, 0), (52223, 0)):
        s.lend("%d and %d lent" % (store, room), store, room)
        s.arrivals("asked while a job is out")
    s.lend("all lent")
    s.reset("reset")
    s.arrivals("nobody")
    s.ready("arrivals: neither key nor verdict is asked for", dict(WORKED, verify=1), 100)
    s.key("coordinator key held", 0, 1)
    came(s, (2, 103))
    for which in (0, 1):
        s.key("a key cleared", which, 0)
    s.arrivals("2 at 103")


def whole_round(s, after):
    """A round with a refused start, a retry, a failure and a success; `after` comes after each call."""
    calls = [lambda: s.start("start", 100, b"a")]
    for clock, (i, m) in enumerate([(0, b"b"), (2, b"a"), (2, b"a"), (0, b"a")], 101):
        calls.append(lambda i=i, m=m, clock=clock: s.process("%d answers" % i, clock, s.answers(i, m)))
    calls += [lambda: s.timeout("no timeout", 110), lambda: s.process("1 answers", 110, s.answers(1)),
              lambda: s.start("11", 111, b"a", 1, sign=1), lambda: s.process("0 shares", 112, s.shares(0)),
              lambda: s.process("1 shares", 113, s.shares(1)), lambda: s.move("move question", "NonceRequest"),
              lambda: s.timeout("late: 2 is struck, retry", 121), lambda: s.process("2 answers", 122, s.answers(2))]
    for clock, ok in ((123, 0), (140, 1)):
        for i in (1, 0):
            calls.append(lambda i=i, clock=clock: s.process("%d answers" % i, clock + 1 - i, s.answers(i)))
        for i in (0, 1):
            calls.append(lambda i=i, clock=clock: s.process("%d shares" % i, clock + 2, s.shares(i)))
        calls.append(lambda ok=ok: s.aggregated("aggregator's answer", ok))
        if not ok:
            calls.append(lambda: s.timeout("late: retry", 139))
    calls += [lambda: s.results("results", 8, [0, 1]), lambda: s.process("an Idle request", 150, s.request(b"b", 9, 9)),
              lambda: s.process("0 answers", 151, s.answers(0, b"b")), lambda: s.timeout("late", 161), lambda: s.reset("reset")]
    for call in calls:
        call()
        after()


def arrivals_unseen(s):
    """The query changes nothing: a round with it after each call goes as it does without, but for the buffer's sums."""
    runs = []
    for label, asks in (("a round without the query of arrivals", False), ("the same round with one after each call", True)):
        s.ready(label)
        begun = len(s.expected)
        whole_round(s, (lambda: s.arrivals("when")) if asks else lambda: None)
        runs.append([re.sub(", sum [0-9a-f]{8}", "", x) for x in s.expected[begun:] if not x.startswith("when: ")])
    assert runs[0] == runs[1], "the query changed something"


def shift(s):
    """Several rounds by one coordinator."""
    four = [(0, [1, 2]), (1, [3]), (2, [4]), (3, [5])]
    s.ready("a shift: a round, a retry, an exclusion, InsufficientSigners", configured(four, threshold=3, sign_threshold=3), 100)
    for i in (0, 1):
        s.process("first round, %d answers" % i, 101, s.answers(i))
    for i in (0, 1):
        s.process("first round, %d shares" % i, 102, s.shares(i))
    s.aggregated("first round, success", 1)
    s.start("second round", 200, b"second", 1)
    for i in (0, 2):
        s.process("second round, %d answers" % i, 201, s.answers(i, b"second"))
    s.process("second round, 0 shares", 202, s.shares(0))
    s.process("second round, late: 2 is excluded, retry", 212, s.shares(2))
    s.process("second round, 2 answers the retry", 213, s.answers(2, b"second"))
    for i in (3, 1):
        s.process("second round, %d answers the retry" % i, 213, s.answers(i, b"second"))
    s.process("second round, 0 answers the retry", 213, s.answers(0, b"second"))
    for i in (0, 1, 3):
        s.process("second round, %d shares" % i, 214, s.shares(i))
    s.aggregated("second round, failed", 0)
    s.timeout("second round, nobody waits: retry", 230)
    for i in (0, 3):
        s.process("second round, %d answers again" % i, 231, s.answers(i, b"second"))
    for i in (0, 3):
        s.process("second round, %d shares again" % i, 232, s.shares(i))
    s.aggregated("second round, success", 1)
    s.process("third round, asked for by a packet", 300, s.request(b"third", 40, 1, 3, bytes([5] * 32)))
    for i in (1, 0):
        s.process("third round, %d answers" % i, 301, s.answers(i, b"third"))
    s.process("third round, 1 shares", 302, s.shares(1))
    s.timeout("third round, late: 0 is excluded, InsufficientSigners", 312)
    s.process("third round, 0 shares after all: late", 313, s.shares(0))
    s.process_message("third round, 0 shares by process_message: a job", 313, s.shares(0))
    s.aggregated("third round, success", 1)
    s.start("fourth round", 400, b"fourth")
    for i in (0, 1, 2, 3):
        s.process("fourth round, %d answers" % i, 401, s.answers(i, b"fourth"))
    s.timeout("fourth round, too few answer", 411)
    s.reset("reset: the excluded stay")
    s.results("key generation anew", 8, [0, 1, 2, 3])
    s.start("fifth round", 500, b"fifth")
    s.process("fifth round, 0 answers", 501, s.answers(0, b"fifth"))
    s.heading("commissioning again: nobody is excluded, ids 0")
    s.commission("the same configuration", configured(four, threshold=3, sign_threshold=3))
    s.start("no group key: 10", 600, b"x")


def recommissioned(s):
    s.to_shares("commissioning while a job is out")
    for i in (0, 1):
        s.process("%d shares" % i, 103, s.shares(i))
    s.commission("commissioned", PAIR)
    s.aggregated("6", 1)
    s.to_shares("a refused commissioning while a job is out")
    for i in (0, 1):
        s.process("%d shares" % i, 103, s.shares(i))
    s.commission("3", configured([(0, [1, 2])], 1))
    s.aggregated("4", 1)
    s.heading("commissioning with a short store: accepted, later calls are 4")
    s.lend("100 bytes lent", 100, 0)
    s.commission("commissioned", WORKED)
    s.key("4", 1, 1)
    s.lend("all lent")
    s.key("group key held", 1, 1)
    s.results("key generation ended", 7, [0, 1, 2])
    s.start("start", 100, b"a")
    s.lend("nothing lent", 0, 0)
    s.commission("commissioned", PAIR)
    s.lend("all lent")
    s.commission("commissioned", WORKED)


def refused_lines(s):
    """What the program tells of a script that it cannot take."""
    s.heading("lines that are no call")
    s.raw("X letter X | 00", "letter X", "not run: no case has this letter")
    s.raw("R a line without a bar", "a line without a bar", "not run: the line has no bar")
    s.raw("", "", "not run: the line has no bar")
    s.raw("T no token | 8:zz", "no token", "not run: a token is no byte and no number")
    s.raw("T a number too large | 1:256", "a number too large", "not run: a number does not fit its bytes")
    s.raw("P a long case | 32769*00", "a long case", "not run: the case is longer than 32768 bytes")
    head = "Z long line |"
    s.raw(head + " " * (8193 - len(head)), "long line", "not run: the line is longer than 8192 bytes")
    s.raw("Q state 15 | 0f 00", "state 15", "not run: no state is above 14")
    s.raw("Q type 4 | 0b 04", "type 4", "not run: no signature type is above 3")
    s.raw("S type 4 | 8:0 04", "type 4", "not run: no signature type is above 3")


def chance(s, seed, calls):
    """Calls drawn at random, most of them such as a round has, and queries between them; the same on every run."""
    r, asks = random.Random(seed), random.Random(1000 + seed)
    signers = sorted(r.sample(range(12), r.randrange(2, 6)))
    sets = [(i, None if r.random() < 0.05 else r.sample(range(1, 9), r.choice((0, 1, 1, 2, 2, 3)))) for i in signers]
    total = sum(len(k or ()) for _, k in sets)
    threshold = r.randrange(total // 2 + 1)
    verify = int(r.random() < 0.2)
    config = configured(sets, threshold=threshold, sign_threshold=r.randrange(1, max(2, total)), timeouts=(None, 5, None, 30, 30), verify=verify)
    s.ready("calls drawn at random, %d" % seed, config)
    s.key("coordinator key held", 0, 1)
    clock, last = 100, ("nothing",)
    for n in range(calls):
        clock += r.choice((0, 0, 0, 1, 1, 2, 3, 3, 40 if r.random() < 0.2 else 0))
        last = drawn(s, r, "%d" % n, clock, config, last)
        if asks.random() < 0.25:
            s.arrivals("%d, arrivals" % n)


MESSAGES = [b"a", b"b", b"", b"cc", b"ddd"]


def likely(s, r, last):
    """The letter of a call that the round may want next."""
    if s.c is None:
        return "C"
    if s.c.job:
        return "A"
    if last[0] == "written" or last[:2] == ("error", 12):
        return r.choice("ZNS")
    if s.c.state == "Idle":
        return "E" if not s.c.ended else "K" if not s.c.held[1] else r.choice("RRI")
    return {"NonceGather": "N", "SigShareGather": "S"}[s.c.state]


def drawn(s, r, label, clock, config, last):
    signers = [i for i, _ in config["signers"]]
    letter = likely(s, r, last) if r.random() < 0.8 else r.choice("NNNSSSRRTTAQKECPIZ")
    if letter == "C" or s.c is None:
        return s.commission(label, config if r.random() < 0.7 else configured([(1, [1, 1])]))
    record = s.c.record(s.c.message)
    waiters = sorted(record["waiters"]) if record and letter == "S" else []
    who = r.choice(waiters if waiters and r.random() < 0.8 else signers + [99] * (r.random() < 0.2))
    ids = list(s.ids())
    if r.random() < 0.07:
        at = r.randrange(3)
        ids[at] = (ids[at] + r.choice((1, 2))) % U64
    stuck = last[0] == "written" or last[:2] == ("error", 12)
    send = s.process_message if stuck else r.choice((s.process, s.process, s.process_message))
    verdict = int(r.random() < 0.97)
    if letter == "N":
        own = sorted(s.c.keys.get(who) or ())
        r.shuffle(own)
        own = own + own[:r.randrange(2)] if r.random() < 0.95 else [3]
        message = s.c.message if r.random() < 0.8 else r.choice(MESSAGES)
        return send(label, clock, s.answers(who, message, own, tuple(ids), None if r.random() < 0.95 else [G + POINT]), verdict)
    if letter == "S":
        return send(label, clock, s.shares(who, None if r.random() < 0.9 else [1], tuple(ids)), verdict)
    if letter == "R":
        return s.start(label, clock, r.choice(MESSAGES), r.choice((0, 0, 3)), bytes([r.randrange(2)] * 32), r.choice((None, None, r.randrange(3))))
    if letter == "I":
        return send(label, clock, s.request(r.choice(MESSAGES), r.randrange(9), r.randrange(3), r.randrange(3)), verdict)
    if letter == "P":
        bad = bytearray(s.answers(who, s.c.message))
        bad[r.randrange(len(bad))] ^= 1 << r.randrange(8)
        return send(label, clock, bytes(bad), verdict)
    if letter == "E":
        return s.results(label, r.randrange(9), signers if r.random() < 0.7 else r.sample(signers, r.randrange(len(signers))))
    if letter == "K":
        which = r.randrange(2) if s.c.held[1] else 1
        return s.key(label, which, int(not s.c.held[which] or r.random() < 0.5))
    if letter == "Q":
        return s.move(label, r.choice(STATES), r.randrange(4), bytes([r.randrange(2)] * 32))
    if letter == "A":
        return s.aggregated(label, int(r.random() < 0.7))
    return s.timeout(label, clock) if letter == "T" else s.reset(label)


def main():
    s = Site()
    uncommissioned(s)
    worked(s)
    limits(s)
    packets(s)
    questions(s)
    moves(s)
    types(s)
    corners(s)
    shift(s)
    recommissioned(s)
    refused_lines(s)
    for seed in range(40):
        chance(s, seed, 40)
    marks(s)
    for cases in (arrivals_told, arrivals_recorded, arrivals_current, arrivals_kept, arrivals_cleared, arrivals_asked, arrivals_unseen):
        cases(s)
    s.heading("a last line without a newline")
    s.reset("reset")
    text = "\n".join(s.script)
    open("crates/site/stdin", "w").write(text)
    open("crates/site/stdout", "w").write("\n".join(s.expected) + "\n")
    print(s.calls, "calls,", len(text), "bytes; questions never answered no:", sorted(ALL - s.numbers))


if __name__ == "__main__":
    main()
