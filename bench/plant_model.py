#!/usr/bin/env python3
"""A model of a plant's file under crashes: torn writes, cuts, syncs, a crash or a kill at each moment, and an opening that may crash too.

    python3 bench/plant_model.py [--times]

The first part is exhaustive. It has the format with one letter for a row, so that all bytes that a torn write may leave can be tried:
H is the head, + and - are an open and a closed gate, n is the line feed behind an open gate, a b c are transactions, e is the last row
of a block. Every content that a crash can leave is visited, from each of them the file is opened again with a crash at each moment,
and so on until there is no new one. What stands has to be what stood before, or that with the block, and what was acknowledged has to
stand. Then forms that are simpler than the protocol are tried, and for each a content is found that breaks this.

The second part has the rows' real format, in which the torn bytes are each beginning of what was written, each byte changed, and
garbage that was made to deceive. A line that begins with `BAD`, and any exception, ends the program with a status other than 0.
"""
import itertools
import random
import sys
import time

# All that garbage may consist of. The transaction that is written last in a history, c, isn't among them.
ALPHABET = "+-nabe"


class Fault(Exception):
    """The file is no plant."""


# ---- the disk

_GARBAGE = {}


def garbage(length):
    """All texts of this length."""
    if length not in _GARBAGE:
        _GARBAGE[length] = ["".join(letters) for letters in itertools.product(ALPHABET, repeat=length)]
    return _GARBAGE[length]


def torn(content, at, count):
    """What a write of so many bytes may leave: any bytes in its range, and any length from the old one to the range's end."""
    if at > len(content):
        yield content
        return
    for length in range(min(count, len(content) - at), count + 1):
        for text in garbage(length):
            yield content[:at] + text + content[at + length:]


class Disk:
    """A file: what a read returns, what a crash may leave now and might have left, and what a kill leaves, with what a crash may then."""

    def __init__(self, content, leaves=None):
        self.seen = content
        self.leaves = {content} if leaves is None else set(leaves)
        self.ever = set(self.leaves)
        self.kills = {(content, frozenset(self.leaves))}

    def _passes(self):
        self.ever |= self.leaves
        self.kills.add((self.seen, frozenset(self.leaves)))

    def write(self, at, text):
        """Writes over what is there, and past the end."""
        assert at <= len(self.seen)
        self.leaves = {new for old in self.leaves for new in torn(old, at, len(text))}
        self.seen = self.seen[:at] + text + self.seen[at + len(text):]
        self._passes()

    def cut(self, length):
        """Cuts the file; a crash may leave it longer."""
        self.leaves = {old[:kept] for old in self.leaves for kept in range(min(length, len(old)), len(old) + 1)}
        self.seen = self.seen[:length]
        self._passes()

    def sync(self):
        """From here on a crash leaves what a read returns."""
        self.leaves = {self.seen}
        self._passes()


# ---- the protocol

def read(file):
    """The transactions that stand, and the place of the gate behind them."""
    if not file.startswith("H"):
        raise Fault("head")
    at, stands = 1, ""
    while True:
        if at >= len(file) or file[at] != "+" or at + 1 == len(file):
            return stands, at
        if file[at + 1] != "n":
            raise Fault(at)
        end = file.find("e", at)
        rows = file[at + 2:end]
        if end < 0 or not rows or any(row not in "abc" for row in rows):
            raise Fault(at)
        stands += rows
        at = end + 1


def put(disk, rows):
    """A block behind its closed gate, with a closed gate behind it; a sync; the gate is opened; a sync."""
    gate = len(disk.seen) - 1
    disk.write(gate + 1, "n")
    disk.write(gate + 2, rows + "e")
    disk.write(gate + 3 + len(rows), "-")
    disk.sync()
    disk.write(gate, "+")
    disk.sync()


def repair(disk):
    """The tail gives way to a closed gate; a file at rest stays as it is."""
    _, gate = read(disk.seen)
    if disk.seen[gate:] != "-":
        disk.cut(gate)
        disk.sync()
        disk.write(gate, "-")
        disk.sync()


def search(name, put=put, repair=repair, read=read, start="H-", history=("a", "ab", "c"), syncs_first=True):
    """Visits each content that can be left, and tells the first that isn't as promised."""
    visited, followed = set(), set()
    waiting = [(start, (), None)]                    # a content, the blocks that stand in it for sure, and one that may
    while waiting:
        case = waiting.pop()
        if case in visited:
            continue
        visited.add(case)
        content, sure, pending = case
        wanted = {"".join(sure)} | ({"".join(sure) + pending} if pending else set())
        try:
            found, _ = read(content)
            disk = Disk(content)
            repair(disk)
        except Fault:
            return f"{name}: WRONG: a crash left {content!r}, which is no plant; wanted {sorted(wanted)}"
        if found not in wanted:
            return f"{name}: WRONG: a crash left {content!r}, read as {found!r}; wanted {sorted(wanted)}"
        stand = sure + ((pending,) if pending and found != "".join(sure) else ())
        waiting += [(left, stand, None) for left in disk.ever]
        opened = (disk.seen, frozenset(disk.leaves), stand)
        if len(stand) == len(history) or opened in followed:
            continue
        followed.add(opened)
        rows = history[len(stand)]
        disk = Disk(disk.seen, disk.leaves)
        put(disk, rows)
        waiting += [(left, stand, rows) for left in disk.ever]
        waiting += [(left, stand + (rows,), None) for left in disk.leaves]
        for seen, leaves in disk.kills:              # a kill, an opening that tells what stands, and then a crash
            told, _ = read(seen)
            after = Disk(seen, leaves)
            if syncs_first:
                after.sync()
            for left in after.leaves:
                try:
                    then, _ = read(left)
                except Fault:
                    then = None
                if then != told:
                    return f"{name}: WRONG: after a kill {told!r} was told, then a crash left {left!r}, read as {then!r}"
    return f"{name}: as promised; {len(visited)} contents with what was acknowledged"


# ---- simpler forms, each of which fails

def mark_with_the_block():
    def put(disk, rows):
        disk.write(len(disk.seen) - 1, "+n" + rows + "e-")
        disk.sync()
    return search("the mark in one write with the block", put=put, history=("a",))


def no_sync_before_the_mark():
    def put(disk, rows):
        gate = len(disk.seen) - 1
        disk.write(gate + 1, "n" + rows + "e-")
        disk.write(gate, "+")
        disk.sync()
    return search("no sync between block and mark", put=put, history=("a",))


def told_before_the_last_sync():
    def put(disk, rows):
        gate = len(disk.seen) - 1
        disk.write(gate + 1, "n" + rows + "e-")
        disk.sync()
        disk.write(gate, "+")
    return search("Ok before the last sync", put=put, history=("a", "b"))


def no_gate_behind():
    def put(disk, rows):
        if disk.seen[-1] != "-":
            disk.write(len(disk.seen), "-")
        gate = len(disk.seen) - 1
        disk.write(gate + 1, "n" + rows + "e")
        disk.sync()
        disk.write(gate, "+")
        disk.sync()

    def closing(disk):
        if disk.seen[read(disk.seen)[1]:]:
            repair(disk)
    return search("no closed gate behind the block, the next one not synced", put=put, repair=closing, history=("a", "b"))


def cut_not_synced():
    def closing(disk):
        gate = read(disk.seen)[1]
        if disk.seen[gate:] != "-":
            disk.cut(gate)
            disk.write(gate, "-")
            disk.sync()
    return search("opening: the cut isn't synced before the gate", repair=closing, history=("a", "b"))


def nothing_cut():
    def closing(disk):
        gate = read(disk.seen)[1]
        if disk.seen[gate:] != "-":
            disk.write(gate, "-")
            disk.sync()

    def put(disk, rows):
        gate = read(disk.seen)[1]
        disk.write(gate + 1, "n" + rows + "e-")
        disk.sync()
        disk.write(gate, "+")
        disk.sync()
    return search("opening: nothing is cut", put=put, repair=closing, history=("a", "b"))


def written_anew():
    def closing(disk):
        gate = read(disk.seen)[1]
        if disk.seen[gate:] != "-":
            whole = disk.seen[:gate] + "-"
            disk.cut(0)
            disk.sync()
            disk.write(0, whole)
            disk.sync()
    return search("opening: the file is emptied and written anew", repair=closing, history=("a",))


def opened_without_a_sync():
    return search("opening reads what a kill left, with no sync first", syncs_first=False, history=("a",))


def read_marks_behind(file):
    """A format with no gates: rows, which count up to the last e."""
    at, stands = 1, ""
    while True:
        end = file.find("e", at)
        if end <= at or any(row not in "abc" for row in file[at:end]):
            return stands, at
        stands += file[at:end]
        at = end + 1


def cut_behind_the_marks(disk):
    at = read_marks_behind(disk.seen)[1]
    if at < len(disk.seen):
        disk.cut(at)
        disk.sync()


def last_row_in_the_same_write():
    def put(disk, rows):
        disk.write(len(disk.seen), rows + "e")
        disk.sync()
    return search("no gate, the last row in the block's write", put=put, repair=cut_behind_the_marks, read=read_marks_behind, start="H",
                  history=("ab",))


def last_row_in_a_write_of_its_own():
    def put(disk, rows):
        disk.write(len(disk.seen), rows)
        disk.sync()
        disk.write(len(disk.seen), "e")
        disk.sync()
    return search("no gate, the last row in a write of its own, after a sync", put=put, repair=cut_behind_the_marks,
                  read=read_marks_behind, start="H", history=("ab",))


def read_to_the_next_gate(file):
    """A format in which a block ends at the next gate."""
    if not file.startswith("H"):
        raise Fault("head")
    at, stands = 1, ""
    while True:
        if at >= len(file) or file[at] != "+" or at + 1 == len(file):
            return stands, at
        ends = [place for place in (file.find("+", at + 1), file.find("-", at + 1)) if place > 0]
        rows = file[at + 2:min(ends)] if ends else ""
        if not rows.endswith("e") or any(row not in "abc" for row in rows[:-1]):
            raise Fault(at)
        stands += rows[:-1]
        at = min(ends)


def block_ends_at_the_next_gate():
    def closing(disk):
        gate = read_to_the_next_gate(disk.seen)[1]
        if disk.seen[gate:] != "-":
            disk.cut(gate)
            disk.sync()
            disk.write(gate, "-")
            disk.sync()
    return search("a block ends at the next gate", read=read_to_the_next_gate, repair=closing, history=("a", "b"))


def read_wide_gates(file):
    """A format whose gates are two bytes, where a torn one is a fault."""
    if not file.startswith("H"):
        raise Fault("head")
    at, stands = 1, ""
    while True:
        gate = file[at:at + 2]
        if gate in ("", "-", "--", "+") or gate == "++" and at + 2 >= len(file):
            return stands, at
        end = file.find("e", at)
        rows = file[at + 2:end]
        if gate != "++" or end < 0 or not rows or any(row not in "abc" for row in rows):
            raise Fault(at)
        stands += rows
        at = end + 1


def mark_of_two_bytes():
    def put(disk, rows):
        gate = len(disk.seen) - 2
        disk.write(gate + 2, rows + "e--")
        disk.sync()
        disk.write(gate, "++")
        disk.sync()

    def closing(disk):
        gate = read_wide_gates(disk.seen)[1]
        if disk.seen[gate:] != "--":
            disk.cut(gate)
            disk.sync()
            disk.write(gate, "--")
            disk.sync()
    return search("a mark of two bytes, of which a torn one is a fault", read=read_wide_gates, put=put, repair=closing, start="H--",
                  history=("a",))


SIMPLER = [mark_with_the_block, no_sync_before_the_mark, told_before_the_last_sync, no_gate_behind, cut_not_synced, nothing_cut,
           written_anew, opened_without_a_sync, last_row_in_the_same_write, last_row_in_a_write_of_its_own,
           block_ends_at_the_next_gate, mark_of_two_bytes]


# ---- the real format

HEAD = "titleplant plant 1\n"


def read_rows(file):
    """The transactions that stand, each an examiner with its posts, and the place of the gate behind them; a fault has its row."""
    if not file.startswith(HEAD):
        raise Fault(1)
    at, stands, names, townships, number = len(HEAD), [], ["UNITED STATES"], [], 1
    while True:
        if file[at:at + 1] != "+" or at + 1 == len(file):
            return stands, at
        number += 1
        if file[at + 1] != "\n":
            raise Fault(number)
        at += 2
        inside, posts, ended = None, [], False
        while not ended:
            number += 1
            feed = file.find("\n", at)
            if feed < 0:
                raise Fault(number)
            row, at = file[at:feed], feed + 1
            fields = row.split(",")
            if fields[0] == "end":
                ended = inside is None and fields[1:] == [str(len(stands))]
                if not ended:
                    raise Fault(number)
            elif fields[0] == "township" and len(fields) == 2 and inside is None and fields[1] not in townships:
                townships.append(fields[1])
            elif fields[0] == "party" and len(fields) == 2 and inside is None and fields[1] not in names:
                names.append(fields[1])
            elif fields[1:] == ["begin"] and fields[0].isdigit() and inside is None:
                inside, posts = fields[0], []
            elif fields[1:] == ["commit"] and fields[0] == inside:
                stands.append((inside, tuple(posts)))
                inside = None
            elif len(fields) == 9 and fields[1] == "deed" and fields[3] in names and fields[4] in names and inside in (None, fields[0]):
                if inside is None:
                    stands.append((fields[0], (row,)))
                else:
                    posts.append(row)
            else:
                raise Fault(number)


def staged_text(standing, declarations, transactions):
    """What `put` writes behind a closed gate."""
    rows = list(declarations)
    for examiner, posts in transactions:
        rows += posts if len(posts) == 1 else [f"{examiner},begin", *posts, f"{examiner},commit"]
    return "\n" + "".join(row + "\n" for row in rows) + f"end,{standing + len(transactions)}\n-"


def deed(examiner, document, grantor, grantee):
    return f"{examiner},deed,{document},{grantor},{grantee},S,W1/2,,T3N R2W sec {1 + document % 36} NE1/4"


def deceits(room, standing):
    """Garbage of at most so many bytes that was made to deceive."""
    fake = staged_text(standing, [], [("7", (deed("7", 666, "UNITED STATES", "ADAMS"),))])
    seeds = ["", "\n", "\n\n", "\r\n", "+", "+\n", "-", "-\n", '"', '"\n', "\ufeff", "\0" * room, "1,commit\n", "2,commit\nend,1\n-",
             f"\nend,{standing}\n-", fake, fake[:-1] + "+", fake[1:], "+" + fake,
             fake[:-1] + "+" + staged_text(standing + 1, [], [("7", ())]), fake * 3,
             f"\nparty,EVE\nend,{standing}\n+", f"\n7,begin\n7,commit\nend,{standing + 1}\n+", HEAD, HEAD + "-"]
    for seed in seeds:
        for text in {seed, seed * (room // max(1, len(seed)) + 1)}:
            for length in {0, 1, 2, len(text) // 2, len(text) - 1, len(text), room - 1, room}:
                if 0 <= length <= min(room, len(text)):
                    yield text[:length]


def real_format(blocks=12, seed=5):
    """Writes blocks of rows, and reads each content that is tried in the place of what a torn write leaves."""
    chance = random.Random(seed)
    file, stands, names, document, contents = HEAD + "-", [], ["UNITED STATES"], 0, 0

    def look(content, wanted):
        nonlocal contents
        contents += 1
        found, gate = read_rows(content)
        assert found == wanted, (content[-200:], found[-2:], wanted[-2:])
        if content[gate:] != "-":                    # an opening, torn at some moments
            for length in {gate, (gate + len(content)) // 2, len(content)}:
                assert read_rows(content[:length])[0] == found
            for byte in ["", "+", "-", "\n", "1", '"']:
                assert read_rows(content[:gate] + byte)[0] == found

    for number in range(blocks):
        declarations = [f"township,T{number + 3}N R2W"] if number % 7 == 0 else []
        if number % 2 == 0:
            names.append(f"PARTY {number}")
            declarations.append(f"party,PARTY {number}")
        transactions = []
        for _ in range(chance.randint(1, 4)):
            examiner, posts = str(chance.randint(1, 99)), []
            for _ in range(chance.randint(0, 3)):
                document += 1
                posts.append(deed(examiner, document, chance.choice(names), chance.choice(names)))
            transactions.append((examiner, tuple(posts)))
        text = staged_text(len(stands), declarations, transactions)
        gate, after = len(file) - 1, stands + transactions
        for length in range(len(text) + 1):
            look(file + text[:length], stands)
        for lie in deceits(len(text), len(stands)):
            look(file + lie, stands)
        for place in range(len(text)):
            for byte in "+-\n,\"0":
                look(file + text[:place] + byte + text[place + 1:], stands)
        for byte in map(chr, range(256)):            # the mark, torn
            look(file[:gate] + byte + file[gate + 1:] + text, after if byte == "+" else stands)
        file, stands = file[:gate] + "+" + file[gate + 1:] + text, after
        look(file, stands)

    refused = 0                                      # a beginning of a file stands for a beginning of its transactions, or is refused
    for length in range(len(HEAD), len(file) + 1):
        try:
            found, _ = read_rows(file[:length])
            assert found == stands[:len(found)]
        except Fault:
            refused += 1
    return (f"the real format: {contents} contents of {blocks} blocks as promised; of {len(file) + 1 - len(HEAD)} beginnings of the file "
            f"{refused} are refused, cut inside a block that counts, and the others stand for a beginning")


def main():
    begun, wrong = time.time(), 0

    def tell(line, right):
        nonlocal wrong
        wrong += not right
        spent = f" ({time.time() - begun:.0f} s)" if "--times" in sys.argv[1:] else ""
        print(("ok   " if right else "BAD  ") + line + spent)

    for history in [("a",), ("a", "b"), ("ab", "a"), ("a", "b", "c")]:
        line = search("the protocol, blocks " + " ".join(history), history=history)
        tell(line, "as promised" in line)
    for simpler in SIMPLER:
        line = simpler()
        tell(line, "WRONG" in line)
    tell(real_format(), True)
    sys.exit(1 if wrong else 0)


if __name__ == "__main__":
    main()
