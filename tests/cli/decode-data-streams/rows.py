"""Streams of a data channel and their texts, each stream whole, in pieces of 7 bytes and in single ones."""
HELLO = "000300000400000003000000"
LONGEST = 65_536 * "a5"
ROWS = [
    ("", ["rest 0"]),
    (HELLO + "9101000000000000" + "9301000004000000" + "07000000", ["hello 3", "stdout 0 -", "exit 7", "rest 0"]),
    (HELLO + "9101000000000000" + "9301000008000000", ["hello 3", "stdout 0 -", "fault bad-length 20 403 8"]),
    ("9301000004000000" + "ffffffff" + "9201000002000000" + "0aFf", ["exit -1", "stderr 2 0aff", "rest 0"]),
    (HELLO + "0004000000000000", ["hello 3", "fault unknown-type 12 1024"]),
    # Where several faults apply, the first of them: the type, a length above all, the type's own lengths.
    ("0004000001000100", ["fault unknown-type 0 1024"]),
    ("0002000009000000" + 9 * "61", ["fault unknown-type 0 512"]),
    ("9301000001000100", ["fault too-long 0 403 65537"]),
    # Lengths beside the ends of their types' ranges.
    ("9001000001000100", ["fault too-long 0 400 65537"]),
    ("9101000001000100", ["fault too-long 0 401 65537"]),
    ("9201000001000100", ["fault too-long 0 402 65537"]),
    ("9301000005000000", ["fault bad-length 0 403 5"]),
    ("9301000003000000", ["fault bad-length 0 403 3"]),
    ("0003000005000000", ["fault bad-length 0 768 5"]),
    # Each type with its least body and with its greatest.
    ("9001000000000000", ["stdin 0 -", "rest 0"]),
    ("9001000000000100" + LONGEST, ["stdin 65536 " + LONGEST, "rest 0"]),
    ("9101000000000100" + LONGEST, ["stdout 65536 " + LONGEST, "rest 0"]),
    ("9201000000000000", ["stderr 0 -", "rest 0"]),
    ("9201000000000100" + LONGEST, ["stderr 65536 " + LONGEST, "rest 0"]),
    ("930100000400000000000080", ["exit -2147483648", "rest 0"]),
]

for stream, lines in ROWS:
    for digits in 2, 14, len(stream):
        if digits and len(stream) // digits < 60_000:
            pieces = [stream[at : at + digits] for at in range(0, len(stream), digits)]
            print("== 0", *pieces, "--", *lines, sep="\n")
