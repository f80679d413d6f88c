"""What comes of the calls of one honest domain, `work`, where `evil` carries out its acts, with one worker.

The data page of a call of `work` is `work:513` for `evil`, the ring that `evil` writes being the left one;
that of a call of `evil` is `work:514`.
"""
HELLO = "000300000400000003000000"


def written(digits):
    """The acts that let these bytes come on the data page of the first call, whole."""
    pieces = enumerate(bytes.fromhex(digits))
    stores = [f"poke work:513 left[{at}] {byte}" for at, byte in pieces]
    return ["hello", *stores, f"poke work:513 left_prod {len(digits) // 2}", "rest 40"]


def row(acts, lines, calls=1):
    """A row: the scenario of so many calls from `work` to `evil`, and the lines of its report."""
    print("== 0", "[[domain]]", 'name = "work"', "[[domain]]", 'name = "evil"', sep="\n")
    print("hostile = [" + ", ".join(f'"{act}"' for act in acts) + "]")
    for _ in range(calls):
        print("[[call]]", 'from = "work"', 'to = "evil"', 'service = "echo"', 'stdin = "hello"', sep="\n")
    print("--", *lines, f"calls {calls}", sep="\n")


def mixed(outcome, got="-", number=1):
    return f"call {number} work evil echo mixed {outcome} {got}"


# A target that never answers: it says nothing at all, or its greeting alone.
row(["rest 60"], [mixed("gone")])
row(["hello", "rest 60"], [mixed("gone")])
# One that is gone before it is asked, and one whose own end of the data page is shut.
row([], [mixed("refused")])
row(["hello", "poke work:513 cli_live 0", "rest 60"], [mixed("closed")])
# One that is gone in the middle of the stream, or behind half a frame.
STREAM = HELLO + "91010000020000006f6b"
row(written(STREAM), [mixed("gone", STREAM)])
HALF = HELLO + "91010000080000006162"
row(written(HALF), [mixed("gone", HALF)])
# One that serves, as one of version 2 too, and one that says what a caller says.
SERVED = STREAM + "930100000400000007000000"
row(written(SERVED), [mixed("done:7", SERVED)])
OLD = "000300000400000002000000" + "930100000400000000000000"
row(written(OLD), [mixed("done:0", OLD)])
ASKED = HELLO + "9001000000000000"
row(written(ASKED), [mixed("fault", ASKED)])
# Of 17 calls the last is asked for once one of the others was told to have ended, and nobody is there then.
row(
    ["hello", "rest 60"],
    [mixed("gone", number=number) for number in range(1, 17)] + [mixed("refused", number=17)],
    calls=17,
)
# Bad bytes on the control channel, in place of the greeting and behind it.
row(["say 9001000000000000", "rest 50"], [mixed("refused")])
row(["hello", "say 1202000060000000", "rest 50"], [mixed("gone")])
# Bad orders on a data page, which the one who serves finds.
row(
    ["hello", "poke work:514 left_order 9", "trigger work echo 1", "rest 60"],
    [mixed("gone"), "served evil work 514 closed -"],
)
# A caller that never says anything on the data page.
row(["hello", "trigger work echo 1", "rest 60"], [mixed("gone"), "served evil work 514 gone -"])
# Each act at its limits: 64 triggers of which 4 have a page, and a saying that nobody reads.
row(
    [
        "hello",
        "trigger work echo 64",
        "say 00*2097152",
        "terminate 4294967295 4294967295",
        "poke control right[4294967295] 18446744073709551615",
        "poke work:4294967295 left_prod 0",
        "signal",
        "scribble 65535 65536",
        "rest 60",
    ],
    [mixed("gone"), *(f"served evil work {port} gone -" for port in (514, 516, 518, 520))],
)
