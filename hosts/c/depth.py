#!/usr/bin/env python3
"""Says, from the archive's own instructions, how deep the stack of each rc_ function can get, over all paths at once.

depth.py ARCHIVE [HEADER]: a line for each function. With HEADER, each depth has to fit into the header's RC_STACK_... with a quarter of it to spare. And that
the archive has no data that can be written: threads with buffers of their own have nothing in common.

The code has no recursion, no call through a pointer and no frame of a length that is only known at run time; where one came, this program would say so and
fail. What lies above the call is counted too: arguments on the stack, the struct that the call answers. memcpy and memset are counted with what glibc's
lazy binding takes where one of them is called for the first time.
"""
import re
import subprocess
import sys

OUTSIDE = {"memcpy": 4096, "memset": 4096, "memmove": 4096, "memcmp": 4096}
ADDRESS = 8
# rc_answer, rc_packet and rc_written are answered through memory of the caller's, the largest 48 bytes; alignment may take 8 more.
ANSWER = 64
# Structs that are passed by value lie on the stack, above the call; so do plain arguments from the seventh on, 8 bytes each.
BY_VALUE = {"rc_commission": 1080, "rc_write_nonce_request": 64, "rc_write_signature_share_request": 64 + 808, "rc_write_job": 64 + 728,
            "rc_write_nonce_timeout": 96, "rc_write_insufficient_signers": 48, "rc_write_arrivals": 168,
            "rc_write_nonce_response": 32 + 16, "rc_write_signature_share_response": 32 + 32, "rc_start_signing_round": 72,
            "rc_process": 40, "rc_process_message": 40, "rc_process_timeout": 16, "rc_tell_arrivals": 8, "rc_can_move_to": 24, "rc_take_results": 16}
# Which macro of the header says how much each call needs: readers and writers have RC_STACK_PACKET, all other calls RC_STACK_CALL.
MACROS = {"rc_process": "PROCESS", "rc_process_message": "PROCESS", "rc_commission": "COMMISSION"}
OF_PACKETS = ("rc_read_packet", "rc_packet_part", "rc_version", "rc_write_")
MARGIN = 4


def fail(words):
    sys.exit(f"depth.py: {words}")


def functions(archive):
    """Name of each function to its instructions (address, mnemonic, operands, the symbol that a relocation names)."""
    listing = subprocess.run(["objdump", "-drC", "--no-show-raw-insn", archive], check=True, capture_output=True, text=True).stdout
    found, name = {}, None
    for line in listing.splitlines():
        if begin := re.match(r"[0-9a-f]+ <(.+)>:$", line):
            name = begin[1]
            found[name] = []
        elif moved := re.match(r"\s+[0-9a-f]+: (R_X86_64_\w+)\s+(.+?)(?:[-+]0x[0-9a-f]+)?$", line):
            # a function of this file may be named by its section, which says more of one that is marked cold
            found[name][-1][3] = moved[2].removeprefix(".text.").removeprefix("unlikely.")
        elif code := re.match(r"\s+([0-9a-f]+):\s+(\S+)\s*(.*)$", line):
            found[name].append([int(code[1], 16), code[2], code[3], None])
    return found


def moves(code, name):
    """How an instruction moves the stack: its depth after it, minus before."""
    _, word, operands, _ = code
    if word.startswith("push"):
        return 8
    if word.startswith("pop"):
        return -8
    by = re.match(r"\$(0x[0-9a-f]+),%rsp$", operands)
    if by and word in ("sub", "add"):
        amount = int(by[1], 16)
        amount -= (amount >> 63) << 64
        return amount if word == "sub" else -amount
    if operands.endswith(",%rsp") and not word.startswith(("cmp", "test")):
        if word == "lea" and (frame := re.match(r"(-?0x[0-9a-f]+)\(%rsp\),%rsp$", operands)):
            return -int(frame[1], 16)
        fail(f"{name}: {word} {operands} is not understood")
    return 0


def depths(name, codes):
    """The depth before each instruction that is reached, from 0 at the function's first."""
    at = {code[0]: i for i, code in enumerate(codes)}
    reached, table, todo = {}, [], [(0, 0)]
    while todo or table:
        if not todo:  # what only a jump table leads to has the depth of the jump
            depth = max(table)
            table = []
            todo = [(i, depth) for i in range(len(codes)) if i not in reached][:1]
            table = [depth] if todo else []
            continue
        i, depth = todo.pop()
        while i < len(codes) and reached.get(i, -1) < depth:
            reached[i] = depth
            _, word, operands, symbol = codes[i]
            if touched := re.match(r"\$(0x[0-9a-f]+),%r11$", operands) if codes[i - 1][2] == "%rsp,%r11" else None:
                # a large frame is made in a loop that touches each page
                while codes[i][1] != "jne":
                    i += 1
                    reached[i] = depth + int(touched[1], 16)
                depth = reached[i]
                i += 1
                continue
            depth += moves(codes[i], name)
            if word in ("ret", "ud2"):
                break
            if word.startswith("j") and operands.startswith("*"):
                table.append(depth)
                break
            if word.startswith("j") and symbol is None:
                target = at.get(int(operands.split()[0], 16))
                if target is None:
                    fail(f"{name}: a jump to nowhere")
                todo.append((target, depth))
            if word == "jmp":
                break
            i += 1
    return reached


def deepest(name, found, known, inside):
    """The deepest that a function's own stack gets, from its return address on."""
    if name in OUTSIDE:
        return OUTSIDE[name]
    if name in inside:
        fail(f"{name} calls itself")
    if name not in known:
        most = 0
        for i, depth in depths(name, found[name]).items():
            _, word, operands, symbol = found[name][i]
            most = max(most, depth + 128 if word != "call" else 0)  # a leaf may write 128 bytes below
            if word == "call" and (symbol is None or operands.startswith("*")):
                fail(f"{name}: a call through a pointer")
            if word == "call" or word.startswith("j") and symbol is not None:
                most = max(most, depth + ADDRESS * (word == "call") + deepest(symbol, found, known, inside | {name}))
        known[name] = most
    return known[name]


def written_sections(archive):
    """Sections with bytes that a program may write."""
    listing = subprocess.run(["objdump", "-h", archive], check=True, capture_output=True, text=True).stdout
    entries = re.findall(r"^\s*\d+ (\S+)\s+([0-9a-f]+) .*\n\s+(.*)$", listing, re.M)
    return [name for name, size, flags in entries if int(size, 16) > 0 and "ALLOC" in flags and "READONLY" not in flags]


def main():
    found, known = functions(sys.argv[1]), {}
    if sections := written_sections(sys.argv[1]):
        fail(f"data that can be written: {sections}")
    macros = {}
    if len(sys.argv) > 2:
        header = open(sys.argv[2]).read()
        macros = {m[1]: 1024 * int(m[2]) for m in re.finditer(r"#define RC_STACK_(\w+) \((\d+) \* 1024\)", header)}
    short = 0
    for name in sorted(n for n in found if n.startswith("rc_")):
        depth = deepest(name, found, known, frozenset()) + ADDRESS + ANSWER + BY_VALUE.get(name, 0)
        macro = MACROS.get(name, "PACKET" if name.startswith(OF_PACKETS) else "CALL")
        good = not macros or depth + depth // MARGIN <= macros[macro]
        short += not good
        print(f"{name:34} {depth:6} bytes" + (f", RC_STACK_{macro} is {macros[macro]}" if macros else "") + ("" if good else "  WRONG: too little"))
    sys.exit(short != 0)


main()
