"""Changes of the third form, and what is printed of them, found by hand. A change is given as `WORD NODE: LINE / LINE ..`."""

ABX = "change2 1: r 1@1 - 3 61 78 62"
BACK, GONE = ["0 plain axb"], ["0 plain ab"]

# Two peers remove the x of `axb`, 2@1, and undo: each takes back every removal of x that it has seen. Peers 1 and 2 tell each other what
# they did only where a case says so; changes that neither saw before its own come in both orders.
PICTURES = [
    ("undo-1-of-a-removal", [ABX, "change 1: d 4@1 2@1", "change3 1: v 5@1 4@1"], BACK),
    ("undo-2-of-two-removals", [ABX, "change 1: d 4@1 2@1", "change 2: d 4@2 2@1", "change3 1: v 5@1 4@1 / v 6@1 4@2"], BACK),
    ("undo-2-in-the-other-order", [ABX, "change 2: d 4@2 2@1", "change 1: d 4@1 2@1", "change3 1: v 5@1 4@1 / v 6@1 4@2"], BACK),
    ("undo-3-the-other-counts-far-ahead", [ABX, "change 1: d 4@1 2@1", "change 2: d 101@2 2@1", "change3 1: v 5@1 4@1 / v 102@1 101@2"], BACK),
    ("undo-3-in-the-other-order", [ABX, "change 2: d 101@2 2@1", "change 1: d 4@1 2@1", "change3 1: v 5@1 4@1 / v 102@1 101@2"], BACK),
    ("undo-4-of-one-of-two-unseen", [ABX, "change 1: d 4@1 2@1", "change3 1: v 5@1 4@1", "change 2: d 4@2 2@1"], GONE),
    ("undo-4-in-the-other-order", [ABX, "change 2: d 4@2 2@1", "change 1: d 4@1 2@1", "change3 1: v 5@1 4@1"], GONE),
    ("undo-5-it-counts-far-ahead", [ABX, "change 1: d 101@1 2@1", "change3 1: v 102@1 101@1", "change 2: d 4@2 2@1"], GONE),
    ("undo-5-in-the-other-order", [ABX, "change 2: d 4@2 2@1", "change 1: d 101@1 2@1", "change3 1: v 102@1 101@1"], GONE),
    ("undo-6-by-both-of-all-they-see", [ABX, "change 1: d 4@1 2@1", "change 2: d 4@2 2@1", "change3 1: v 5@1 4@1 / v 6@1 4@2", "change3 2: v 5@2 4@1 / v 6@2 4@2"], BACK),
    ("undo-6-in-the-other-order", [ABX, "change 2: d 4@2 2@1", "change 1: d 4@1 2@1", "change3 2: v 5@2 4@1 / v 6@2 4@2", "change3 1: v 5@1 4@1 / v 6@1 4@2"], BACK),
    ("undo-7-by-both-unseen", [ABX, "change 1: d 4@1 2@1", "change3 1: v 5@1 4@1", "change 2: d 4@2 2@1", "change3 2: v 5@2 4@2"], BACK),
    ("undo-7-in-the-other-order", [ABX, "change 2: d 4@2 2@1", "change 1: d 4@1 2@1", "change3 2: v 5@2 4@2", "change3 1: v 5@1 4@1"], BACK),
    ("undo-8-one-counts-far-ahead", [ABX, "change 1: d 101@1 2@1", "change 2: d 4@2 2@1", "change3 2: v 5@2 4@2", "change3 1: v 102@1 101@1"], BACK),
    ("undo-8-in-the-other-order", [ABX, "change 2: d 4@2 2@1", "change3 2: v 5@2 4@2", "change 1: d 101@1 2@1", "change3 1: v 102@1 101@1"], BACK),
    ("undo-9-and-redo", [ABX, "change 1: d 4@1 2@1", "change3 1: v 5@1 4@1", "change 1: d 6@1 2@1"], GONE),
    ("undo-10-a-late-removal", [ABX, "change 1: d 201@1 2@1", "change3 1: v 202@1 201@1", "change 2: d 4@2 2@1"], GONE),
    ("undo-10-in-the-other-order", [ABX, "change 2: d 4@2 2@1", "change 1: d 201@1 2@1", "change3 1: v 202@1 201@1"], GONE),
    ("undo-11-beside-what-is-left", [ABX, "change 1: d 4@1 2@1", "change 2: d 5@2 1@1 / d 6@2 3@1", "change3 1: v 5@1 4@1"], ["0 plain x"]),
    ("undo-12-of-another-ones-text", [ABX, "change 2: d 4@2 2@1", "change 1: d 5@1 2@1", "change3 2: v 6@2 4@2 / v 7@2 5@1"], BACK),
    ("undo-12-of-its-own-removal-alone", [ABX, "change 2: d 4@2 2@1", "change 1: d 5@1 2@1", "change3 2: v 6@2 4@2"], GONE),
    ("undo-13-by-both-and-redo", [ABX, "change 1: d 4@1 2@1", "change 2: d 4@2 2@1", "change3 1: v 5@1 4@1 / v 6@1 4@2",
                                  "change3 2: v 5@2 4@1 / v 6@2 4@2", "change 1: d 7@1 2@1"], GONE),
    ("undo-13-in-the-other-order", [ABX, "change 2: d 4@2 2@1", "change 1: d 4@1 2@1", "change3 2: v 5@2 4@1 / v 6@2 4@2",
                                    "change3 1: v 5@1 4@1 / v 6@1 4@2", "change 1: d 7@1 2@1"], GONE),
]

SHOWN = [
    ("third-form-every-line", ["change3 1: i 1@1 - 61 / r 2@1 1@1 3 62 63 64 / d 5@1 2@1 / d 6@1 3@1 2 / m 8@1 code - <1@1 >4@1 / "
                               "u 9@1 code <4@1 $ / v 10@1 5@1 / v 11@1 6@1 2"], ["0 code abc", "1 plain d"]),
    ("third-form-of-one-insert", ["change3 1: i 1@1 - 61"], ["0 plain a"]),
    ("third-form-back-in-its-own-change", ["change3 1: i 1@1 - 61 / d 2@1 1@1 / v 3@1 2@1"], ["0 plain a"]),
    ("third-form-back-with-its-format", [ABX, "change 1: m 4@1 strong - <1@1 <3@1", "change 1: d 5@1 2@1", "change3 1: v 6@1 5@1"], ["0 strong ax", "1 plain b"]),
    ("third-form-back-with-a-mark-that-came-meanwhile", [ABX, "change 1: d 4@1 2@1", "change 2: m 5@2 em - <2@1 >2@1", "change3 1: v 6@1 4@1"],
     ["0 plain a", "1 em x", "2 plain b"]),
    ("third-form-back-between-marks", [ABX, "change 1: d 4@1 2@1", "change 2: m 5@2 em - >2@1 $ / m 6@2 strong - ^ <2@1", "change3 1: v 6@1 4@1"],
     ["0 strong a", "1 plain x", "2 em b"]),
    ("third-form-back-before-what-was-typed-at-it", [ABX, "change 1: d 4@1 2@1", "change 2: i 5@2 2@1 79", "change3 1: v 6@1 4@1"], ["0 plain axyb"]),
    ("third-form-back-of-all", [ABX, "change3 1: d 4@1 1@1 3", "change3 2: v 7@2 4@1 3"], BACK),
    ("third-form-all-removed-by-a-run", [ABX, "change3 1: d 4@1 1@1 3"], []),
    ("third-form-a-part-of-a-run-back", ["change2 1: r 1@1 - 4 61 62 63 64", "change3 1: d 5@1 2@1 3", "change3 2: v 8@2 6@1 2"], ["0 plain acd"]),
    ("third-form-a-run-back-from-within", ["change2 1: r 1@1 - 4 61 62 63 64", "change3 2: d 5@2 1@1 4", "change3 1: v 7@1 6@2"], ["0 plain b"]),
    ("third-form-a-run-over-what-two-typed", ["change2 1: r 1@1 - 3 61 62 63", "change2 2: r 2@2 1@1 3 78 79 7a", "change3 2: d 5@2 2@1 2 / d 7@2 3@2 2"],
     ["0 plain ax"]),
    ("third-form-removals-of-lines-as-a-run-back", ["change 1: i 1@1 - 61 / i 2@1 - 62 / d 3@1 2@1 / d 4@1 1@1", "change3 2: v 5@2 3@1 2"], ["0 plain ba"]),
    ("third-form-back-twice", [ABX, "change 1: d 4@1 2@1", "change3 1: v 5@1 4@1", "change3 2: v 6@2 4@1"], BACK),
    ("third-form-back-twice-in-one-run", [ABX, "change3 1: d 4@1 1@1 2", "change3 1: v 6@1 5@1", "change3 2: v 7@2 4@1 2"], BACK),
    ("third-form-removed-twice-and-back-once", [ABX, "change 1: d 4@1 2@1", "change 1: d 5@1 2@1", "change3 1: v 6@1 4@1"], GONE),
    ("third-form-removed-thrice-and-two-back", [ABX, "change 1: d 4@1 2@1 / d 5@1 2@1 / d 6@1 2@1", "change3 1: v 7@1 5@1 2"], GONE),
    ("third-form-removed-thrice-and-three-back", [ABX, "change 1: d 4@1 2@1 / d 5@1 2@1 / d 6@1 2@1", "change3 1: v 7@1 4@1 3"], BACK),
    ("third-form-removed-behind-a-revival", [ABX, "change 2: d 4@2 2@1", "change3 1: v 5@1 4@2", "change 3: d 3@3 2@1"], GONE),
    ("third-form-removals-up-to-the-greatest-counter", [ABX, "change3 1: d 281474976710654@1 1@1 2"], ["0 plain b"]),
]

# Behind `change3 1 1`, or in place of it: what is said of line 1.
REFUSED_HEADERS = [
    ("change3 1 0", "42 Limit"),
    ("change3 1 257", "42 Limit"),
    ("change3 0 1", "42 Limit"),
    ("change3 65536 1", "42 Limit"),
    ("change3 1  1", "40 BadLine"),
    ("change3 1 1 ", "40 BadLine"),
    ("change3 1", "40 BadLine"),
    ("change3 1 1 1", "40 BadLine"),
    ("change3 01 1", "40 BadLine"),
    ("Change3 1 1", "40 BadLine"),
    ("change33 1 1", "40 BadLine"),
    ("change4 1 1", "40 BadLine"),
    ("change0 1 1", "40 BadLine"),
    ("change1 1 1", "40 BadLine"),
]

REMOVED = [ABX, "change3 1: d 4@1 1@1 2"]


def of_no_form(line):
    return [f"change3 1: {line}"], "40 BadLine", "change 1 line 2"


def past_its_limits(line):
    return [f"change3 1: {line}"], "42 Limit", "change 1 line 2"


def behind_removals(line, want, node=1):
    return REMOVED + [f"change3 {node}: {line}"], want, "change 3 line 2"


REFUSED = [
    # In the first two forms these lines have no form, whatever their numbers are.
    *[([f"{word} 1: {line}"], "40 BadLine", "change 1 line 2") for word in ("change", "change2")
      for line in ("v 3@1 2@1", "v 0@1 2@1", "v 3@1 2@1 2", "d 3@1 1@1 2", "d 3@1 1@1 1")],
    *[of_no_form(line) for line in (
        "v", "v ", "v 3@1", "v 3@1 ", "v  3@1 2@1", "v 3@1  2@1", "v 3@1 2@1 ", " v 3@1 2@1", "v\t3@1 2@1", "v 3@1 2@1\r", "V 3@1 2@1", "w 3@1 2@1",
        "v 3@1 -", "v - 2@1", "v 3@1 <2@1", "v 3@1 2", "v 3 2@1", "v 3@1 02@1", "v 03@1 2@1", "v 3@1 2@1@1",
        "v 3@1 2@1 02", "v 3@1 2@1 00", "v 3@1 2@1 +2", "v 3@1 2@1 -2", "v 3@1 2@1 0x2", "v 3@1 2@1 a", "v 3@1 2@1 2@1", "v 3@1 2@1 -", "v 3@1 2@1  2",
        "v 3@1 2@1 2 ", "v 3@1 2@1 2 2", "v 0@1 2@1 x",
        "d 3@1 1@1 ", "d 3@1 1@1 02", "d 3@1 1@1 x", "d 3@1 1@1 2 2", "d 3@1 - 2", "d 3@1 1@1 1@1", "d 3@1 1@1  2", "dd 3@1 1@1 2")],
    *[past_its_limits(line) for line in (
        "v 0@1 2@1", "v 3@0 2@1", "v 3@65536 2@1", "v 3@1 0@1", "v 3@1 2@0", "v 3@1 2@65536", "v 281474976710656@1 2@1", "v 3@1 281474976710656@1",
        "v 36893488147419103233@1 2@1", "v 3@1 2@1 0", "v 3@1 2@1 1", "v 3@1 2@1 65536", "v 3@1 2@1 18446744073709551618", "v 281474976710655@1 2@1 2",
        "v 281474976645122@1 2@1 65535", "v 3@1 281474976710655@1 2", "v 0@1 2@1 2", "v 3@2 2@1 1",
        "d 3@1 1@1 0", "d 3@1 1@1 1", "d 3@1 1@1 65536", "d 3@1 1@1 36893488147419103234", "d 281474976710655@1 1@1 2", "d 3@1 281474976710655@1 2",
        "d 0@1 1@1 2", "d 3@1 0@1 2", "d 3@2 1@1 0", "d 3@2 0@1 2")],
    # Another peer's, within the limits.
    *[([f"change3 1: {line}"], "44 WrongPeer", "change 1 line 2") for line in ("v 3@2 2@1", "v 3@2 2@1 2", "d 3@2 1@1 2", "d 3@2 9@9 65535")],
    (["change3 1: i 1@1 - 0 / v 2@1 1@1 0"], "43 CharRefused", "change 1 line 2"),
    # Of `axb` the removals 4@1 and 5@1 hide 1@1 and 2@1. No removal: a character, a revival, a mark, what isn't there.
    behind_removals("v 6@1 3@1", "47 UnknownRef"),
    behind_removals("v 6@1 6@2", "46 StaleCounter"),
    behind_removals("v 7@1 6@2", "47 UnknownRef"),
    behind_removals("v 7@2 6@1", "47 UnknownRef", 2),
    behind_removals("d 6@1 4@1", "47 UnknownRef"),
    (REMOVED + ["change3 1: v 6@1 4@1", "change3 1: v 7@1 6@1"], "47 UnknownRef", "change 4 line 2"),
    (REMOVED + ["change3 1: m 6@1 em - ^ $ / v 7@1 6@1"], "47 UnknownRef", "change 3 line 3"),
    # Counters that are too low: of its peer's, of the removal's, and of one in the midst of a run.
    behind_removals("v 5@1 4@1", "46 StaleCounter"),
    behind_removals("v 4@2 4@1", "46 StaleCounter", 2),
    behind_removals("v 5@2 5@1", "46 StaleCounter", 2),
    behind_removals("v 4@2 5@1 2", "46 StaleCounter", 2),
    behind_removals("d 2@2 2@1 2", "46 StaleCounter", 2),
    behind_removals("d 3@2 9@9", "46 StaleCounter", 2),
    # A run of which the last names what isn't there.
    behind_removals("v 6@1 4@1 3", "47 UnknownRef"),
    behind_removals("v 7@2 5@1 2", "47 UnknownRef", 2),
    behind_removals("d 6@1 2@1 3", "47 UnknownRef"),
    behind_removals("d 6@1 3@1 2", "47 UnknownRef"),
    # The whole change is refused at its later line.
    (REMOVED + ["change3 1: v 6@1 4@1 2 / v 8@1 9@1"], "46 StaleCounter", "change 3 line 3"),
    (REMOVED + ["change3 1: v 6@1 4@1 2 / d 9@1 1@1 / v 10@1 8@1"], "47 UnknownRef", "change 3 line 4"),
]

LETTERS = " 61" * 255
RUNS = [f"d {100000 + 70000 * at}@1 1@1 65535" for at in range(4)]
MEANT_ROWS = [
    ("third-form-255-characters-and-a-run-are-256", ["change3 1 2", f"r 1@1 - 255{LETTERS}", "d 256@1 1@1 255"], [], 0),
    ("third-form-255-characters-a-run-and-a-line", ["change3 1 3", f"r 1@1 - 255{LETTERS}", "d 256@1 1@1 255", "v 511@1 256@1"],
     ["refused 42 Limit change 1 line 4"], 1),
    ("third-form-256-characters-and-a-run", ["change3 1 2", f"r 1@1 - 256{LETTERS} 61", "d 257@1 1@1 256"], ["refused 42 Limit change 1 line 3"], 1),
    ("third-form-no-form-behind-256-characters", ["change3 1 2", f"r 1@1 - 256{LETTERS} 61", "d 257@1 1@1 x"], ["refused 40 BadLine change 1 line 3"], 1),
    # 4 times 65,535 and 4 are 262,144. What they name isn't there, which is looked at behind the whole change.
    ("third-form-262144-meant", ["change3 1 5", *RUNS, "d 400000@1 1@1 4"], ["refused 47 UnknownRef change 1 line 2"], 1),
    ("third-form-262145-meant-by-a-run", ["change3 1 5", *RUNS, "d 400000@1 1@1 5"], ["refused 42 Limit change 1 line 6"], 1),
    ("third-form-262145-meant-by-a-line", ["change3 1 6", *RUNS, "d 400000@1 1@1 4", "d 400004@1 1@1"], ["refused 42 Limit change 1 line 7"], 1),
    ("third-form-262145-meant-by-characters", ["change3 1 6", *RUNS, "d 400000@1 1@1 3", "r 400004@1 - 2 61 62"], ["refused 42 Limit change 1 line 7"], 1),
    ("third-form-262144-meant-and-a-line-of-no-form", ["change3 1 6", *RUNS, "d 400000@1 1@1 4", "v 400004@1"], ["refused 40 BadLine change 1 line 7"], 1),
    ("third-form-run-of-one-behind-262144", ["change3 1 6", *RUNS, "d 400000@1 1@1 4", "v 400004@2 1@1 1"], ["refused 42 Limit change 1 line 7"], 1),
    ("third-form-another-peers-behind-262144", ["change3 1 6", *RUNS, "d 400000@1 1@1 4", "v 400004@2 1@1"], ["refused 42 Limit change 1 line 7"], 1),
    ("third-form-cut-short-in-a-run", ["change3 1 2", "d 3@1 1@1 2"], ["refused 41 Truncated change 1"], 1),
]

CHARACTERS_OF = "61101400000000009500000000000000"
SESSIONS = [
    ("session-third-form", ["replay", "--read"],
     ["change2 1 1", "r 1@1 - 3 61 78 62", f"sub 64 {CHARACTERS_OF}", "change3 2 1", "d 4@2 1@1 2", "show 2 0 9", "change3 1 1", "v 6@1 5@2",
      "show 3 0 9", "change3 1 2", "v 7@1 4@2 2", "d 9@1 3@1", "show 4 0 9", "show 2 0 9", "show 1 0 9", "pull 0 64", "changes 1 64", "newest 1", "newest 2", "left"],
     ["ok version 1", "ok sub 0", "ok version 2", "span 0 plain b", "ok spans 1", "ok version 3", "span 0 plain xb", "ok spans 1",
      "ok version 4", "span 0 plain ax", "ok spans 1", "span 0 plain b", "ok spans 1", "span 0 plain axb", "ok spans 1",
      "hit 1 0 3", "end 1 1", "hit 2 0 1", "end 2 1", "hit 3 0 2", "end 3 1", "hit 4 0 2", "end 4 1", "ok items 8",
      "change3 2 1", "d 4@2 1@1 2", "change3 1 1", "v 6@1 5@2", "change3 1 2", "v 7@1 4@2 2", "d 9@1 3@1", "ok changes 3",
      "ok newest 9", "ok newest 5", "ok left 4092 32765 4096 63"]),
    ("session-third-form-refused-and-then-taken", ["replay", "--read"],
     ["change2 1 1", "r 1@1 - 3 61 78 62", "change3 1 2", "d 4@1 1@1 3", "v 7@1 9@9", "show 1 0 9", "change3 1 2", "d 4@1 1@1 3", "v 7@1 5@1",
      "change3 1 1", "v 8@1 4@1 9", "show 2 0 9", "change2 1 1", "v 8@1 4@1", "change3 1 1", "v 8@1 4@1 3", "show 3 0 9", "newest 1"],
     ["ok version 1", "no 46 StaleCounter line 3", "span 0 plain axb", "ok spans 1", "ok version 2", "no 47 UnknownRef line 2", "span 0 plain x", "ok spans 1",
      "no 40 BadLine line 2", "ok version 3", "span 0 plain axb", "ok spans 1", "ok newest 10"]),
    ("session-third-form-headers", ["replay"],
     ["change3", "change3 ", "change3 x", "change3 1", "change3 1 1 ", "change3 01 1", "change3 1 0", "change3 1 257", "change3 65536 1",
      "change33 1 1", "change4 1 1", "Change3 1 1", "change3 1 2", "i 1@1 - 61", "v 2@1 1@1", "change3 1 3", "d 1@1 1@1 2", "x", "pull 0 1", "change3 1 1", "i 1@1 - 61"],
     ["no 40 BadLine line 1"] * 6 + ["no 42 Limit line 1"] * 3 + ["no 60 BadCommand"] * 3
     + ["no 47 UnknownRef line 3", "no 40 BadLine line 3", "ok version 1"]),
    ("session-third-form-counter-jump", ["replay", "--counter-jump", "10"],
     ["change2 1 1", "r 1@1 - 3 61 78 62", "change3 1 1", "d 4@1 1@1 3", "change3 1 1", "v 14@1 4@1 3", "change3 1 1", "d 25@1 1@1 3",
      "change3 1 2", "d 17@1 1@1", "v 26@1 4@1 2", "change3 1 1", "d 24@1 1@1 3"],
     ["ok version 1", "ok version 2", "ok version 3", "no 42 Limit line 2", "no 42 Limit line 3", "ok version 4"]),
]

# Behind 128 changes of 256 characters of four bytes, 1000@1 and so on, which fill the text.
FULL_LINES = [
    "change3 1 3", "d 200000@1 1000@1", "d 200001@1 1001@1", "d 200002@1 1001@1",
    "change 1 2", "i 200003@1 - 61", "i 200004@1 - 1f600",
    # 1001@1 has another removal, so this shows nothing. Then it would show 4 bytes, and 3 are left.
    "change3 2 1", "v 200010@2 200001@1",
    "change3 2 1", "v 200011@2 200002@1",
    "change3 2 2", "d 200011@2 200003@1", "v 200012@2 200002@1",
    # Nothing is left. What is taken back already needs no room, 1000@1 needs 4 bytes, which the last removal makes.
    "change3 2 1", "v 200013@2 200000@1",
    "change3 2 2", "v 200013@2 200002@1", "v 200014@2 200000@1",
    "change3 2 2", "v 200013@2 200002@1", "d 200014@2 1001@1",
    "change3 1 1", "v 200015@1 200000@1",
    "change3 1 1", "v 200016@1 200011@2",
    "change3 1 2", "d 200016@1 1002@1", "v 200017@1 200011@2",
    "change3 1 1", "v 200018@1 200016@1",
]
FULL_REPLIES = [f"ok version {number}" for number in range(1, 132)] + [
    "no 48 DocumentFull line 2", "ok version 132", "no 48 DocumentFull line 2", "no 48 DocumentFull line 3",
    "ok version 133", "ok version 134", "no 48 DocumentFull line 2", "ok version 135", "no 48 DocumentFull line 2",
]
