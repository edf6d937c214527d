"""Keys of the third form, with the kinds of lines, and what is printed of them, found by hand. A change is given as `WORD NODE: LINE / LINE ..`."""

# A heading `ab`, a bullet `cd`, and an empty last line: a 1@1, b 2@1, its line feed 3@1, c 4@1, d 5@1, its line feed 6@1.
BASE = ["change2 1: r 1@1 - 6 61 62 a 63 64 a", "change3 1: m 7@1 block heading:1 ^ >3@1 / m 8@1 block bullet:0 >3@1 >6@1"]
# The same, and a last line `ef` that is a quote.
LAST = [*BASE, "change3 1: r 9@1 6@1 2 65 66 / m 11@1 block quote >6@1 $"]
HEADING, BULLET = "0 block=heading:1 ab\\n", "1 block=bullet:0 cd\\n"

# What two peers do who don't see each other, in each order, or one alone.
KINDS = [
    ("kind-0-nobody-writes", BASE, [], [HEADING, BULLET]),
    ("kind-1-both-split-the-heading", BASE, ["change 2: i 10@2 1@1 a", "change 3: i 10@3 2@1 a"], ["0 block=heading:1 a\\nb\\n\\n", BULLET]),
    ("kind-2-both-split-the-bullet", BASE, ["change 2: i 10@2 4@1 a", "change 3: i 10@3 4@1 a"], [HEADING, "1 block=bullet:0 c\\n\\nd\\n"]),
    ("kind-3-both-join-the-lines", BASE, ["change 2: d 10@2 3@1", "change 3: d 10@3 3@1"], ["0 block=heading:1 ab", BULLET]),
    ("kind-4-one-joins-and-one-makes-the-first-a-quote", BASE, ["change 2: d 10@2 3@1", "change3 3: m 10@3 block quote ^ >3@1"], ["0 block=quote ab", BULLET]),
    ("kind-5-one-joins-and-one-makes-the-second-a-quote", BASE, ["change 2: d 10@2 3@1", "change3 3: m 10@3 block quote >3@1 >6@1"],
     ["0 block=heading:1 ab", "1 block=quote cd\\n"]),
    ("kind-6-one-splits-and-one-makes-it-a-quote", BASE, ["change 2: i 10@2 1@1 a", "change3 3: m 12@3 block quote ^ >3@1"], ["0 block=quote a\\nb\\n", BULLET]),
    ("kind-7-the-one-that-splits-counts-ahead", BASE, ["change 2: i 20@2 1@1 a", "change3 3: m 12@3 block quote ^ >3@1"], ["0 block=quote a\\nb\\n", BULLET]),
    ("kind-8-both-change-one-kind", BASE, ["change3 2: m 10@2 block number:0 >3@1 >6@1", "change3 3: m 10@3 block quote >3@1 >6@1"],
     [HEADING, "1 block=quote cd\\n"]),
    ("kind-9-one-joins-and-one-splits-the-second", BASE, ["change 2: d 10@2 3@1", "change 3: i 10@3 4@1 a"], ["0 block=heading:1 ab", "1 block=bullet:0 c\\nd\\n"]),
    ("kind-10-one-joins-and-one-splits-at-the-end", BASE, ["change 2: d 10@2 3@1", "change 3: i 10@3 2@1 a"], [HEADING, BULLET]),
    ("kind-11-one-appends-a-line-and-one-makes-the-last-a-rule", BASE, ["change2 2: r 10@2 6@1 2 65 a", "change3 3: m 12@3 block rule >6@1 $"],
     [HEADING, BULLET, "2 block=rule e\\n"]),
    ("kind-12-one-joins-the-last-and-one-makes-it-a-quote", BASE, ["change 2: d 10@2 6@1", "change3 3: m 10@3 block quote >6@1 $"],
     [HEADING, "1 block=bullet:0 cd"]),
    ("kind-13-one-puts-a-line-above-and-one-makes-it-a-quote", BASE, ["change 2: i 10@2 - a", "change3 3: m 12@3 block quote ^ >3@1"],
     ["0 block=quote \\nab\\n", BULLET]),
    ("kind-14-a-new-line-that-goes-on-as-a-paragraph", BASE, ["change3 2: i 10@2 2@1 a / u 12@2 block >10@2 >3@1"], [HEADING, "1 plain \\n", "2 block=bullet:0 cd\\n"]),
    ("kind-15-an-old-client-at-the-headings-end", BASE, ["change 2: i 10@2 2@1 a"], ["0 block=heading:1 ab\\n\\n", BULLET]),
    ("kind-16-an-old-client-within-the-heading", BASE, ["change 2: i 10@2 1@1 a"], ["0 block=heading:1 a\\nb\\n", BULLET]),
    ("kind-17-an-old-client-behind-the-last-line", LAST, ["change2 2: r 20@2 10@1 2 a 67"], [HEADING, BULLET, "2 block=quote ef\\ng"]),
    ("kind-18-one-writes-at-the-front-and-one-makes-it-a-quote", BASE, ["change 2: i 10@2 - 78", "change3 3: m 12@3 block quote ^ >3@1"],
     ["0 block=quote xab\\n", BULLET]),
    ("kind-19-one-empties-the-bullet-and-one-makes-it-a-quote", BASE, ["change 2: d 10@2 4@1 / d 11@2 5@1", "change3 3: m 12@3 block quote >3@1 >6@1"],
     [HEADING, "1 block=quote \\n"]),
    ("kind-20-one-appends-a-paragraph-and-one-makes-it-a-heading", LAST,
     ["change3 2: r 20@2 10@1 2 a 67 / u 22@2 block >20@2 $", "change3 3: m 32@3 block heading:2 >6@1 $"], [HEADING, BULLET, "2 block=heading:2 ef\\ng"]),
    ("kind-21-the-one-that-appends-counts-ahead", LAST,
     ["change3 2: r 20@2 10@1 2 a 67 / u 22@2 block >20@2 $", "change3 3: m 12@3 block heading:2 >6@1 $"], [HEADING, BULLET, "2 block=heading:2 ef\\n", "3 plain g"]),
]

# Each kind, over a letter of its own.
WORDS = ["heading:1", "heading:2", "heading:3", "heading:4", "heading:5", "heading:6",
         "bullet:0", "bullet:1", "bullet:2", "bullet:3", "bullet:4", "bullet:5", "bullet:6", "bullet:7",
         "number:0", "number:1", "number:2", "number:3", "number:4", "number:5", "number:6", "number:7",
         "task:0:open", "task:1:open", "task:2:open", "task:3:open", "task:4:open", "task:5:open", "task:6:open", "task:7:open",
         "task:0:done", "task:1:done", "task:2:done", "task:3:done", "task:4:done", "task:5:done", "task:6:done", "task:7:done",
         "quote", "pre", "rule"]

ABCD = "change2 1: r 1@1 - 4 61 62 63 64"
SHOWN = [
    ("key-every-key", ["change 1: i 1@1 - 61", "change3 1: m 2@1 block task:7:done ^ $ / m 3@1 strike - ^ $ / m 4@1 underline - ^ $ / m 5@1 comment:4294967295 - ^ $ / "
                       "m 6@1 comment:2 - ^ $ / m 7@1 color 00ff00 ^ $ / m 8@1 link - ^ $ / m 9@1 code - ^ $ / m 10@1 em - ^ $ / m 11@1 strong - ^ $"],
     ["0 strong,em,code,link=-,color=00ff00,comment:2,comment:4294967295,underline,strike,block=task:7:done a"]),
    ("key-new-beside-old", [ABCD, "change 2: m 5@2 strong - <1@1 <3@1", "change3 3: m 6@3 underline - <2@1 >3@1 / m 7@3 block quote <3@1 $"],
     ["0 strong a", "1 strong,underline b", "2 underline,block=quote c", "3 block=quote d"]),
    ("key-new-ones-alone", [ABCD, "change3 1: m 5@1 underline - <1@1 >1@1 / m 6@1 strike - <2@1 >2@1 / m 7@1 block pre <3@1 >3@1"],
     ["0 underline a", "1 strike b", "2 block=pre c", "3 plain d"]),
    ("key-underline-grows", [ABCD, "change3 1: m 5@1 underline - <1@1 <3@1", "change 2: i 6@2 2@1 78"], ["0 underline abx", "1 plain cd"]),
    ("key-strike-grows", [ABCD, "change3 1: m 5@1 strike - <1@1 <3@1", "change 2: i 6@2 2@1 78"], ["0 strike abx", "1 plain cd"]),
    ("key-a-kind-ends-behind-its-last", [ABCD, "change3 1: m 5@1 block rule <1@1 >2@1", "change 2: i 6@2 2@1 78"], ["0 block=rule ab", "1 plain xcd"]),
    ("key-underline-taken-away", [ABCD, "change3 1: m 5@1 underline - ^ $", "change3 2: u 6@2 underline <2@1 >3@1"], ["0 underline a", "1 plain bc", "2 underline d"]),
    ("key-underline-taken-away-by-a-lesser-id", [ABCD, "change3 1: m 7@1 underline - ^ $", "change3 2: u 6@2 underline <2@1 >3@1"], ["0 underline abcd"]),
    ("key-strike-between-two-removals", [ABCD, "change3 3: u 9@3 strike <3@1 $", "change3 2: m 8@2 strike - <2@1 $", "change3 1: u 7@1 strike ^ $"],
     ["0 plain a", "1 strike b", "2 plain cd"]),
    ("key-a-kind-over-another", [ABCD, "change3 1: m 5@1 block bullet:0 ^ $", "change3 2: m 6@2 block bullet:1 <2@1 >3@1"],
     ["0 block=bullet:0 a", "1 block=bullet:1 bc", "2 block=bullet:0 d"]),
    ("key-a-kind-under-another", [ABCD, "change3 2: m 6@2 block bullet:1 <2@1 >3@1", "change3 1: m 5@1 block bullet:0 ^ $"],
     ["0 block=bullet:0 a", "1 block=bullet:1 bc", "2 block=bullet:0 d"]),
    ("key-one-kind-twice-is-one-span", [ABCD, "change3 1: m 5@1 block task:0:open ^ >2@1 / m 6@1 block task:0:open >2@1 $"], ["0 block=task:0:open abcd"]),
    ("key-kinds-of-one-word-are-two-spans", [ABCD, "change3 1: m 5@1 block task:0:open ^ >2@1 / m 6@1 block task:0:done >2@1 $"],
     ["0 block=task:0:open ab", "1 block=task:0:done cd"]),
    ("key-a-kind-taken-away-shows-no-older-one", [ABCD, "change3 1: m 5@1 block quote ^ $ / m 6@1 block pre ^ $ / u 7@1 block <2@1 $"], ["0 block=pre a", "1 plain bcd"]),
    ("key-of-one-counter", [ABCD, "change3 2: m 5@2 block number:1 ^ $", "change3 3: m 5@3 block number:2 ^ $"], ["0 block=number:2 abcd"]),
    ("key-of-a-character-that-comes-back", [ABCD, "change3 1: m 5@1 underline - <2@1 >2@1 / m 6@1 block quote <2@1 $ / d 7@1 2@1", "change3 2: v 8@2 7@1"],
     ["0 plain a", "1 underline,block=quote b", "2 block=quote cd"]),
    ("key-of-removed-characters-alone", [ABCD, "change3 1: m 5@1 strike - <2@1 >3@1 / d 6@1 2@1 2"], ["0 plain ad"]),
    ("key-with-ends-in-the-wrong-order", [ABCD, "change3 1: m 5@1 underline - $ ^ / m 6@1 block quote >3@1 <2@1"], ["0 plain abcd"]),
]

# Of no form in the first two forms, whatever their numbers are; in the third one accepted, or refused for their numbers.
EARLIER = ["m 1@1 underline - ^ $", "u 1@1 underline ^ $", "m 1@1 strike - ^ $", "u 1@1 strike ^ $", "m 1@1 block quote ^ $", "m 1@1 block task:0:open ^ $",
           "u 1@1 block ^ $", "m 0@1 underline - ^ $", "u 1@65536 block ^ $", "m 1@1 strike - <9@9 $", "m 1@2 block rule ^ $"]

NO_VALUES = ["-", "paragraph", "heading", "heading:", "heading:0", "heading:7", "heading:10", "heading:01", "heading:1:", "heading:-1", "heading:a", "heading:1:open",
             "Heading:1", "headings:1", "head:1", "bullet", "bullet:", "bullet:8", "bullet:00", "bullet:10", "bullet:0:open", "number", "number:8", "number:+1",
             "task", "task:", "task:0", "task:0:", "task:8:open", "task:00:done", "task:0:Open", "task:0:opened", "task:0:close", "task:0:done:", "task:open", "task::open",
             "task:0:open:done", "quote:", "quote:0", "quotes", "Quote", "pre:1", "pr", "rule:0", "rules", "hr", "block", "heading:1,quote"]

NO_LINES = ["m 1@1 underline ^ $", "m 1@1 underline x ^ $", "m 1@1 underline  ^ $", "m 1@1 underline - ^", "u 1@1 underline - ^ $", "m 1@1 Underline - ^ $",
            "m 1@1 underlined - ^ $", "m 1@1 under - ^ $", "m 1@1 underline: - ^ $", "m 1@1 underline:1 - ^ $", "m 1@1 strike x ^ $", "m 1@1 strike -- ^ $",
            "m 1@1 strikes - ^ $", "m 1@1 s - ^ $", "u 1@1 Strike ^ $", "m 1@1 block ^ $", "m 1@1 block  ^ $", "m 1@1 block quote quote ^ $", "m 1@1 block=quote - ^ $",
            "m 1@1 block:1 quote ^ $", "m 1@1 blocks quote ^ $", "m 1@1 quote - ^ $", "u 1@1 block quote ^ $", "u 1@1 block:1 ^ $", "u 1@1 block",
            "m 0@1 block heading:7 ^ $", "m 1@65536 underline x ^ $", "m 1@2 block - ^ $", "m 01@1 strike - ^ $", "m 1@1 block quote ^ ^1@1"]

REFUSED = [
    *[(f"m 1@1 block {value} ^ $", "40 BadLine") for value in NO_VALUES],
    *[(line, "40 BadLine") for line in NO_LINES],
    *[(line, "42 Limit") for line in (
        "m 0@1 underline - ^ $", "u 0@1 strike ^ $", "m 1@0 block quote ^ $", "u 1@65536 block ^ $", "m 281474976710656@1 strike - ^ $", "u 36893488147419103233@1 underline ^ $",
        "m 1@1 block rule <0@1 $", "m 1@1 underline - ^ >1@65536", "m 0@2 block pre ^ $")],
    *[(line, "44 WrongPeer") for line in ("m 1@2 underline - ^ $", "u 1@2 strike ^ $", "m 1@2 block heading:1 ^ $", "u 1@2 block <9@9 $")],
    ("m 1@1 block quote >1@1 $", "46 StaleCounter"), ("u 1@1 underline ^ <2@2", "46 StaleCounter"), ("m 2@1 strike - <1@1 $", "47 UnknownRef"),
    ("u 9@1 block >3@3 $", "47 UnknownRef"),
]

# A text of four letters, b and c strong, c and d underlined, d of a kind: 5 spans of which `show` tells two neighbors alike.
FLAGS = "61101800000000009500000000000000"
CHARACTERS_OF = "61101400000000009500000000000000"
MARKED = ["change2 1 1", "r 1@1 - 5 61 62 63 64 65", "change3 1 4", "m 6@1 strong - <2@1 >3@1", "m 7@1 underline - <3@1 >4@1", "m 8@1 block bullet:7 <4@1 >4@1",
          "m 9@1 strike - <4@1 >4@1"]
MARKED_REPLIES = ["ok version 1", "ok version 2"]
TOLD = ["span 0 plain a", "span 1 strong b", "span 2 strong c", "span 3 plain d", "span 4 plain e", "ok spans 5"]
TOLD_ALL = ["span 0 plain a", "span 1 strong b", "span 2 strong,underline c", "span 3 underline,strike,block=bullet:7 d", "span 4 plain e", "ok spans 5"]
NO_SHOWS = ["show3", "show3 ", "show3 0", "show3 0 0", "show3 0 0 0", "show3 0 0 1025", "show3 0  0 1", "show3  0 0 1", "show3 00 0 1", "show3 0 00 1", "show3 0 0 01",
            "show3 0 0 1 ", " show3 0 0 1", "show3 0 0 1 1", "show3 -1 0 1", "show3 0 0 +1", "show3 18446744073709551616 0 1", "show3 0 18446744073709551616 1",
            "show3 0 0 18446744073709551617", "Show3 0 0 1", "show33 0 0 1", "show2 0 0 1", "show1 0 0 1", "show4 0 0 1", "show 3 0 0 1", "show30 0 1", "shows3 0 0 1"]
SHOWS = [("show3 0 0 1", "ok spans 0"), ("show3 0 7 1024", "ok spans 0"), ("show3 0 18446744073709551615 1", "ok spans 0"), ("show3 1 0 1", "no 55 NoVersion"),
         ("show3 18446744073709551615 0 1", "no 55 NoVersion")]
SESSIONS = [
    ("session-show-beside-show3", ["replay", "--read"], MARKED + ["show 2 0 64", "show3 2 0 64", "show 1 0 64", "show3 1 0 64", "show 2 2 2", "show3 2 2 2", "show 2 4 9",
                                                                   "show3 2 4 9", "show3 2 5 9", "show3 3 0 9", "changes 1 1"],
     MARKED_REPLIES + TOLD + TOLD_ALL + ["span 0 plain abcde", "ok spans 1"] * 2 + TOLD[2:4] + TOLD[-1:] + TOLD_ALL[2:4] + TOLD[-1:]
     + ["span 4 plain e", "ok spans 5"] * 2 + ["ok spans 5", "no 55 NoVersion"] + MARKED[2:] + ["ok changes 1"]),
    # An old subscriber: its spans, indices and end are those of all. A flag is seen of b and c alone.
    ("session-hits-beside-new-keys", ["replay", "--read"],
     [f"sub 64 {FLAGS}", f"sub2 64 {CHARACTERS_OF}", f"sub3 64 {FLAGS}"] + MARKED + [f"sub 64 {FLAGS} from 2", "pull 0 64", "pull 1 64", "pull 2 64", "pull 3 64"],
     ["ok sub 0", "ok sub 1", "ok sub 2"] + MARKED_REPLIES + ["ok sub 3"]
     + ["end 0 0", "end 1 1", "hit 2 1 1", "hit 2 2 1", "end 2 5", "ok items 5"]
     + ["end 0 0", "hit 1 0 5", "end 1 1", *[f"hit 2 {at} 1" for at in range(5)], "end 2 5", "ok items 9"]
     + ["end 0 0", "end 1 1", "hit 2 1 1", "hit 2 2 1", "end 2 5", "ok items 5"]
     + ["hit 2 1 1", "hit 2 2 1", "end 2 5", "ok items 3"]),
    ("session-new-keys-in-an-earlier-form", ["replay", "--read"],
     ["change 1 2", "i 1@1 - 61", "m 2@1 underline - ^ $", "change2 1 1", "m 1@1 block quote ^ $", "change3 1 2", "i 1@1 - 61", "m 2@1 block quotes ^ $", "show3 0 0 1",
      "change3 1 2", "i 1@1 - 61", "m 2@1 block quote ^ $", "show 1 0 1", "show3 1 0 1", "change2 1 1", "u 3@1 block ^ $", "change3 1 1", "u 3@1 block ^ $", "show3 2 0 1"],
     ["no 40 BadLine line 3", "no 40 BadLine line 2", "no 40 BadLine line 3", "ok spans 0", "ok version 1", "span 0 plain a", "ok spans 1", "span 0 block=quote a", "ok spans 1",
      "no 40 BadLine line 2", "ok version 2", "span 0 plain a", "ok spans 1"]),
    ("session-show3-lines", ["replay", "--read"], NO_SHOWS + [line for line, _ in SHOWS], ["no 60 BadCommand"] * len(NO_SHOWS) + [reply for _, reply in SHOWS]),
    ("session-show3-without-read", ["replay"], NO_SHOWS + [line for line, _ in SHOWS], ["no 60 BadCommand"] * (len(NO_SHOWS) + len(SHOWS))),
]

JOINED = [
    ("join-of-new-keys", ["change2 1: r 1@1 - 2 61 62", "change3 1: m 3@1 block quote ^ $", "change 1: m 4@1 em - ^ $", "change3 2: m 4@2 underline - ^ $ / u 5@2 block <2@1 $"],
     ["change3 1 3", "r 1@1 - 2 61 62", "m 3@1 block quote ^ $", "m 4@1 em - ^ $", "change3 2 2", "m 4@2 underline - ^ $", "u 5@2 block <2@1 $"]),
]
