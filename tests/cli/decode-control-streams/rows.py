"""Streams of a control channel and their texts, each stream whole, in pieces of 7 bytes and in single ones."""
TO_64 = 64 * "62" + "63616c6c2d3100" + 25 * "7a" + "6563686f00"
EXEC = "0100000001020000"
COMMAND = "44454641554c543a5155424553525043206563686f20776f726b00"
NAMES = "6563686f" + 60 * "00" + "7661756c74" + 27 * "00" + "63616c6c2d31" + 26 * "00"
FULL = 63 * "73" + "00" + 31 * "74" + "00" + 31 * "69" + "00"
ROWS = [
    ("1202000065000000" + TO_64 + "0003000004", ["trigger3 " + 63 * "b" + " call-1 echo", "rest 5"]),
    ("0002000023000000" + EXEC + COMMAND, ["exec 1 513 DEFAULT:QUBESRPC echo work", "rest 0"]),
    ("9001000000000000", ["fault unknown-type 0 400"]),
    ("1202000061000000" + 64 * "6e" + 32 * "69" + "65", ["fault no-nul 0 530"]),
    ("1202000001000100", ["fault too-long 0 530 65537"]),
    ("1002000080000000" + NAMES, ["trigger vault call-1 echo", "rest 0"]),
    (
        "0302000020000000" + 32 * "61" + "1102000008000000" + "0200000001020000",
        ["refused " + 31 * "a", "terminated 2 513", "rest 0"],
    ),
    # The bytes of a text that print, and the bytes beside them.
    ("0302000020000000" + "1f207e7f80ff" + 26 * "00", ["refused _ ~___", "rest 0"]),
    # Where several faults apply, the first of them: the type, a length above all, the type's own lengths,
    # and the missing NUL once the body is there.
    ("9301000008000000", ["fault unknown-type 0 403"]),
    ("0002000001000100" + 9 * "61", ["fault too-long 0 512 65537"]),
    ("0002000008000000" + 8 * "61", ["fault bad-length 0 512 8"]),
    ("1202000060000000" + 96 * "61", ["fault bad-length 0 530 96"]),
    ("0002000009000000" + 8 * "00", ["rest 16"]),
    # Lengths beside the ends of their types' ranges.
    ("0003000003000000", ["fault bad-length 0 768 3"]),
    ("0102000008000000", ["fault bad-length 0 513 8"]),
    ("0102000001000100", ["fault too-long 0 513 65537"]),
    ("0202000027000000", ["fault bad-length 0 514 39"]),
    ("0202000029000000", ["fault bad-length 0 514 41"]),
    ("030200001f000000", ["fault bad-length 0 515 31"]),
    ("0302000021000000", ["fault bad-length 0 515 33"]),
    ("100200007f000000", ["fault bad-length 0 528 127"]),
    ("1002000081000000", ["fault bad-length 0 528 129"]),
    ("1102000007000000", ["fault bad-length 0 529 7"]),
    ("1102000009000000", ["fault bad-length 0 529 9"]),
    ("1202000000000100", ["rest 8"]),
    # Each type with its least parts and with its greatest.
    ("0002000009000000" + EXEC + "00", ["exec 1 513 -", "rest 0"]),
    ("0002000000000100" + EXEC + 65_527 * "6c" + "00", ["exec 1 513 " + 65_527 * "l", "rest 0"]),
    ("0102000009000000ffffffff0000000000", ["just-exec 4294967295 0 -", "rest 0"]),
    ("0102000000000100ffffffff00000000" + 65_527 * "6c" + "00", ["just-exec 4294967295 0 " + 65_527 * "l", "rest 0"]),
    ("02020000280000000403020102000000" + 32 * "00", ["connect 16909060 2 -", "rest 0"]),
    ("02020000280000000403020102000000" + 31 * "69" + "00", ["connect 16909060 2 " + 31 * "i", "rest 0"]),
    ("0302000020000000" + 32 * "00", ["refused -", "rest 0"]),
    ("0302000020000000" + 31 * "69" + "00", ["refused " + 31 * "i", "rest 0"]),
    ("11020000080000000300000002020000", ["terminated 3 514", "rest 0"]),
    ("1202000061000000" + 97 * "00", ["trigger3 - - -", "rest 0"]),
    (
        "1202000000000100" + 63 * "74" + "00" + 31 * "69" + "00" + 65_439 * "73" + "00",
        ["trigger3 " + 63 * "t" + " " + 31 * "i" + " " + 65_439 * "s", "rest 0"],
    ),
    ("1002000080000000" + 128 * "00", ["trigger - - -", "rest 0"]),
    ("1002000080000000" + FULL, ["trigger " + 31 * "t" + " " + 31 * "i" + " " + 63 * "s", "rest 0"]),
]

for stream, lines in ROWS:
    for digits in 2, 14, len(stream):
        if len(stream) // digits < 60_000:
            pieces = [stream[at : at + digits] for at in range(0, len(stream), digits)]
            print("== 0", *pieces, "--", *lines, sep="\n")
