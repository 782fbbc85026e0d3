"""What the replay of transcripts takes, and what it does not: changed transcripts of the documents beside and below
this folder, and transcripts of documents that stand here."""
import pathlib

from model.replay import check_transcript
from model.session import Session
from model.told import Wrong

EXAMPLES = pathlib.Path(__file__).resolve().parent.parent

# two clients that write and read one register at once, and how the transcript must not be
AT_ONCE = """client 1
1 write b0:a done @1.1
2 read b0:a = 0x00000002 @3.1
client 2
1 write b0:a done @2.1
2 read b0:a = 0x00000002 @4.1
board b0 places 4 replied 4 timeout 0 lost 0
"""
NOT_AT_ONCE = {
    "a place twice": [("@4.1", "@3.1")],
    "a place left out": [("@4.1", "@5.1")],
    "no place": [(" @4.1", "")],
    "a script turned round": [("@1.1", "@9.1"), ("@3.1", "@1.1"), ("@9.1", "@3.1")],
    "another transaction of the body": [("@4.1", "@4.2")],
    "the value of another place": [("= 0x00000002 @3.1", "= 0x00000001 @3.1")],
    "the writes in another order": [("@1.1", "@9.1"), ("@2.1", "@1.1"), ("@9.1", "@2.1")],
    "another result": [("write b0:a done @2.1", "write b0:a = 0x00000002 @2.1")],
    "an error of no bus": [("= 0x00000002 @4.1", "error 4 after 0 @4.1")],
    "skipped behind nothing": [("= 0x00000002 @4.1", "skipped @4.1")],
    "garbled": [("= 0x00000002 @4.1", "garbled @4.1")],
    "a timeout that is not counted": [("= 0x00000002 @4.1", "timeout after 8 rounds, execution unknown @4.1")],
    "a timeout that no line shows": [("replied 4 timeout 0", "replied 3 timeout 1")],
    "unsent with a place": [("= 0x00000002 @4.1", "unsent @4.1")],
    "more places": [("places 4 replied 4", "places 5 replied 5")],
    "more places than memory holds": [("4 replied 4", "10000000000 replied 10000000000")],
    "the most places": [("4 replied 4", f"{(1 << 64) - 1} replied {(1 << 64) - 1}")],
    "a silent board": [("places 4 replied 4 timeout 0 lost 0", "silent")],
    "a line of another register": [("read b0:a ", "read b0:a.top ")],
    "a line left out": [("2 read b0:a = 0x00000002 @3.1\n", "")],
    "a number in front with zeros": [("@4.1", "@04.1")],
    "no line feed": [("lost 0\n", "lost 0")],
}

# how the transcript of the guide to losses must not be
NOT_WITH_LOSSES = {
    "a packet executed twice": [("= 0x00000001 @2.1", "= 0x00000002 @2.1")],
    "a packet left out": [("= 0x00000001 @2.1", "= 0x00000000 @2.1")],
    "an unsent packet that was executed": [("= 0x00000000 @3.2", "= 0x00000001 @3.2")],
    "packets out of order": [("= 0x00000015 0x00000016 @3.1", "= 0x00000001 0x00000002 @3.1")],
    "a timeout after too few rounds": [("timeout after 2 rounds", "timeout after 1 rounds")],
    "a timeout without a place": [("execution unknown @1.1", "execution unknown")],
    "a late answer without a place": [("answered late: done @1.1", "answered late: done")],
    "a timeout told as a reply": [("places 3 replied 1 timeout 2", "places 3 replied 2 timeout 1")],
    "an unsent packet with a place": [("count unsent\n7", "count unsent @4.1\n7"), ("places 3", "places 4")],
    "a reply of a silent board": [("b3:count unsent", "b3:count = 0x00000000 @1.1")],
    "a lost link of a silent board": [("b3:count unsent", "b3:count link lost")],
}

# how the transcript of late answers to each verb must not be
NOT_LATE = {
    "another word late": [("late: = 0x00000005 @1.1", "late: = 0x00000004 @1.1")],
    "a field that is not shifted late": [("late: = 0x00000005 @1.1", "late: = 0x00000050 @1.1")],
    "the word behind a sum late": [("late: was 0x00000007", "late: was 0x00000006")],
    "a word of a block too few late": [("0x00000005 0x00000003 @1.7", "0x00000005 @1.7")],
    "a read as done late": [("late: = 0x00000005 @1.1", "late: done @1.1")],
    "an error as skipped late": [("late: error 4 after 8", "late: skipped")],
    "another error late": [("late: error 4 after 8", "late: error 4 after 7")],
    "skipped as done late": [("late: skipped", "late: = 0x00000009")],
    "garbled late": [("late: done @1.5", "late: garbled @1.5")],
    "nothing late": [("late: done @1.5", "late: @1.5")],
    "a late answer without a place": [("late: done @1.5", "late: done")],
    "a late answer after too many rounds": [("1 rounds, answered late: skipped", "2 rounds, answered late: skipped")],
    "a packet answered late and in time": [("timeout after 1 rounds, answered late: done @1.5", "done @1.5")],
    "a packet answered late and not": [("answered late: done @1.5", "execution unknown @1.5")],
    "what was answered in time late": [("= 0x00000107", "timeout after 1 rounds, answered late: = 0x00000107")],
    "late answers told as replies": [("replied 1 timeout 1", "replied 2 timeout 0")],
    "late answers left out of the places": [("places 2 replied 1 timeout 1", "places 1 replied 1 timeout 0")],
}


# how the transcript of operations that a policy denies on two boards must not be
NOT_UNDER_A_POLICY = {
    "another rule": [("b1:a denied by rule 1", "b1:a denied by rule 2")],
    "no rule": [("b1:a denied by rule 1", "b1:a denied by rule 0")],
    "what is denied with a place": [("b1:a denied by rule 1", "b1:a denied by rule 1 @1.1")],
    "what is denied as unsent": [("b1:a denied by rule 1", "b1:a unsent")],
    "what is denied as done": [("b1:a denied by rule 1", "b1:a done @1.1")],
    "what is denied as done without a place": [("b1:a denied by rule 1", "b1:a done")],
    "what is allowed as denied": [("1 write b0:a done @1.1", "1 write b0:a denied by rule 1")],
    "what is allowed as denied, at a place": [("1 write b0:a done @1.1", "1 write b0:a denied by rule 1 @1.1")],
    "a number that is not counted": [("3 read b1:sys.id", "2 read b1:sys.id")],
    "a line of what is denied left out": [("2 write b1:a denied by rule 1\n", "")],
    "what is denied among the places": [("places 1 replied 1", "places 2 replied 2")],
    "what is denied executed": [("6 read b1:a = 0x00000000", "6 read b1:a = 0x00000002")],
}


# a block in three packets, of which two have a place, and what another client reads of the second and the third one
PARTLY_SENT = f"""
tables.main = [
  {{ id = "block", mode = "block", size = 39 }}, {{ id = "b", address = 13 }}, {{ id = "c", address = 26 }},
]
board = [ {{ name = "b0", table = "main", mtu = 92, ranges = [ {{ base = 0, size = 39 }} ] }} ]
[[client]]
script = ["writeblock b0:block {'1 ' * 13}{'2 ' * 13}{'3 ' * 13}"]
[[client]]
script = ["read b0:b", "read b0:c"]
""".encode()
TIMED_OUT = "timeout after 8 rounds, execution unknown"
ANSWERED_LATE = "timeout after 8 rounds, answered late: done"
# the result of the block, what is read, how many of the three places were replied to, and whether it can be so
PARTLY_SENT_RESULTS = [
    (TIMED_OUT, 2, 0, 2, True),
    (TIMED_OUT, 0, 3, 2, True),
    (TIMED_OUT, 0, 3, 1, True),
    (TIMED_OUT, 2, 3, 1, False),  # the first one has a place
    (TIMED_OUT, 0, 0, 1, False),  # one of the others has one
    (TIMED_OUT, 2, 0, 3, False),  # one was timed out
    (ANSWERED_LATE, 2, 0, 2, True),
    (ANSWERED_LATE, 0, 3, 1, True),
    (ANSWERED_LATE, 2, 0, 3, False),  # one was timed out
    ("unsent", 2, 3, 1, True),
    ("unsent", 0, 3, 2, True),
    ("unsent", 2, 0, 3, True),
    ("unsent", 2, 3, 0, False),  # what is read was replied to
    ("unsent", 0, 3, 1, False),  # the first one was, since it is not the one that is told of
    ("unsent", 2, 0, 2, False),  # the first two were
    ("unsent", 1, 3, 3, False),
    ("done", 2, 3, 3, False),
    ("error 5 after 0", 2, 0, 3, False),
]


# a block that is read in packets of 14, 14 and 11 words
PARTLY_LATE = f"""
tables.main = [ {{ id = "block", mode = "block", size = 39 }} ]
[[board]]
name = "b0"
table = "main"
mtu = 92
ranges = [ {{ base = 0, size = 39, init = {[1] * 14 + [2] * 14 + [3] * 11} }} ]
[[client]]
script = ["readblock b0:block 39"]
""".encode()
# the words that came late, how many of the packets have a place and were replied to, and whether it can be so
PARTLY_LATE_RESULTS = [
    ([1] * 14, 3, 2, True),
    ([1] * 14, 3, 0, True),
    ([2] * 14, 3, 2, True),
    ([2] * 14, 3, 1, True),
    ([3] * 11, 3, 2, True),
    ([1] * 14, 2, 1, True),
    ([2] * 14, 2, 1, True),
    ([1] * 14, 1, 0, True),
    ([1] * 14, 3, 3, False),  # one was timed out
    ([2] * 14, 3, 0, False),  # the first one was replied to
    ([3] * 11, 3, 1, False),  # the first two were
    ([2] * 14, 2, 0, False),  # the second one has no place, or the first one was replied to
    ([3] * 11, 2, 1, False),  # the third one has no place, or one before it has none
    ([2] * 14, 1, 0, False),  # the first one has a place
    ([1] * 14 + [2] * 14, 3, 1, False),  # a packet is shown alone
    ([1] * 11, 3, 2, False),
    ([3] * 14, 3, 2, False),
    ([1] * 13 + [2], 3, 2, False),
]


def replay_faults(session, text, status):
    """What is wrong with a transcript by replay: a list of one text, or an empty one."""
    try:
        check_transcript(session, text, status)
    except Wrong as wrong:
        return [str(wrong)]
    return []


def taken_or_not(faults, is_right):
    """The faults of the replay itself, where it found these in a transcript that is right, or is not."""
    if is_right:
        return faults
    return [] if faults else ["it was taken"]


def a_part_sent():
    session = Session(PARTLY_SENT)
    for result, second, third, replied, is_right in PARTLY_SENT_RESULTS:
        text = f"""client 1
1 writeblock b0:block {result} @1.1,2.1
client 2
1 read b0:b = 0x{second:08x} @3.1
2 read b0:c = 0x{third:08x} @3.2
board b0 places 3 replied {replied} timeout {3 - replied} lost 0
"""
        told = f"a block in part {result}, {second}, {third}, {replied}"
        yield told, taken_or_not(replay_faults(session, text, 1), is_right)


def a_part_late():
    session = Session(PARTLY_LATE)
    for words, sent, replied, is_right in PARTLY_LATE_RESULTS:
        shown = " ".join(f"0x{word:08x}" for word in words)
        places = ",".join(f"{place}.1" for place in range(1, sent + 1))
        text = f"""client 1
1 readblock b0:block timeout after 8 rounds, answered late: = {shown} @{places}
board b0 places {sent} replied {replied} timeout {sent - replied} lost 0
"""
        told = f"a block of which a part is late {words}, {sent}, {replied}"
        yield told, taken_or_not(replay_faults(session, text, 1), is_right)


def variants(session, transcript, changed):
    """The replay takes none of these variants of a transcript, with status 0 or 1."""
    for name, changes in changed.items():
        text = transcript
        for old, new in changes:
            text = text.replace(old, new)
        is_taken = text == transcript or any(not replay_faults(session, text, status) for status in (0, 1))
        yield name, ["it was taken"] if is_taken else []


def replay_cases():
    """Each case by its name, with what is wrong with it."""
    clients = EXAMPLES / "run" / "two_clients_write_and_read.toml"
    session = Session(clients.read_bytes())
    yield "clients at once", replay_faults(session, AT_ONCE, 0)
    yield "clients at once with another status", taken_or_not(replay_faults(session, AT_ONCE, 1), False)
    yield from variants(session, AT_ONCE, NOT_AT_ONCE)
    for name, changed in (
        ("guide/losses", NOT_WITH_LOSSES),
        ("lossy/late_answers_of_every_verb", NOT_LATE),
        ("run/policy_on_two_boards", NOT_UNDER_A_POLICY),
    ):
        file = EXAMPLES / f"{name}.toml"
        session, transcript = Session(file.read_bytes()), file.with_suffix(".out").read_text()
        yield f"{name} with status 0", taken_or_not(replay_faults(session, transcript, 0), False)
        yield from variants(session, transcript, changed)
    yield from a_part_sent()
    yield from a_part_late()
