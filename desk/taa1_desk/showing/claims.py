# SPDX-License-Identifier: MIT
"""The argument for markers as data, since an installed desk has no docs: the steps of the
model argument, the parts of the rubric and the rows of the table. `contracts write` makes
them from crates/claims/argument.toml, as it does docs/ARGUMENT.md's."""

from __future__ import annotations

from typing import NamedTuple


class Step(NamedTuple):
    """A step of the model argument; they are numbered from 1."""

    title: str
    words: str


class Part(NamedTuple):
    """A part of the rubric: what it asks, and what is worth its points, half of them, none."""

    name: str
    points: int
    asks: str
    full: str
    half: str
    none: str


class Claim(NamedTuple):
    """A sentence that a candidate may write, and what is proved of it."""

    label: str  # the number of its step, and a letter
    name: str
    sentence: str
    verdict: str  # true, false, false as a reason, or open
    proved: str  # for all, or by an example; nothing of what is open
    why: str
    instead: str  # what is so instead, if it is false
    crate: str  # where statement and theorem stand, each as a file and a name
    statement: str
    theorem: str


STEPS: tuple[Step, ...] = (
    # begin steps, made by `contracts write`
    Step(
        "What is given",
        "Kind, ring and version are given. The kind names one of the ring's keys as the sealing"
        " key, and sealing key and version give the key of the cipher, which is therefore fixed."
        " Nothing less will do: another kind, ring or version may open the same text as well, to"
        " the same bytes (1a, 1f) or to others (1b, 1j, 1k).",
    ),
    Step(
        "The cipher can be undone",
        "Under one key each block of 8 bytes is the encryption of one block, since decryption"
        " undoes encryption (2a). f itself can't be undone (2c) and need not be: a round leaves"
        " one half as it is, so f of that half can be worked again and taken away, whatever f is"
        " (2d).",
    ),
    Step(
        "The dropped byte comes back",
        "BL1's sixteen bytes lose byte 8, the last of the left block. The right block, decrypted,"
        " is the right input ⊕ the left output; and as the input's last byte is zero, the last"
        " byte of that is the dropped one. So each string of 15 bytes comes from exactly one input"
        " that ends in a zero byte (3a). Without the zero byte 256 inputs would share it (3b);"
        " without the chaining 256 that end in a zero byte would share each text that comes from"
        " one at all (3c).",
    ),
    Step(
        "One entry for a text",
        "The input is the kind's expansion of the body, and the body can be read out of it again."
        " So the text fixes the input and the input fixes the body: two entries never share a text"
        " (4b). Or in one sentence: unsealing undoes sealing, and gives one result (4a). This"
        " answers why a sealed text can open to one entry only. It needs no check.",
    ),
    Step(
        "What the checks say",
        "Unsealing gives some body for every text there is, so that a text unseals to a key says"
        " nothing (5b). The checks pass exactly on what the kind's expansion makes of a legal"
        " body, and shrinking gives that body (5a). For kinds 2 and 5 the three zero bits of the"
        " number byte belong to the checks: without them eight texts would open to one entry (5e).",
    ),
    Step(
        "What opens was sealed",
        "A text comes from one input (step 3). If no check fails, that input is the expansion of"
        " a legal body (step 5). So the text is the sealed text of that body, of no other, and"
        " sealing the body gives the text again (6a).",
    ),
    Step(
        "Records",
        "A record is its text and what stands before it. Kind and version stand there in the"
        " clear, and TA61 can be undone under a given ring, so the identity, too, comes from one"
        " only (7a). The flag protects neither the identity (7c) nor the kind byte (7f).",
    ),
    Step(
        "Books",
        "A book is its records in their order, as many as its length says; it opens exactly if"
        " each of them does (8b), and if it opens, it is the sealed form of one plain book (8a)."
        " That no record was left out, repeated or moved does not follow (8d, 8e, 8f).",
    ),
    Step(
        "What the flag notices",
        "To open to one entry only is not to notice every change. Some changes of one byte are"
        " always noticed (9b); other changes may lead from one text that opens to another (9c, 9d,"
        " 9f).",
    ),
    Step(
        "Marking by equal records",
        "A hand-in may have its records in any order. It is marked by the number of its records"
        " that are the model's, byte for byte, none counted twice; no other way to pair them would"
        " count more (10a), and neither order nor copies beyond the model's own change it (10b,"
        " 10c).",
    ),
    # end steps
)

PARTS: tuple[Part, ...] = (
    # begin parts, made by `contracts write`
    Part(
        "given",
        1,
        "Say what must be fixed for that.",
        "Kind, ring and version are said to be given, in any words: kind, sealing key and version"
        " will do, and so will the kind and the key of the cipher. 'Must be known' counts as"
        " given, and a wrong reason for it costs nothing here.",
        "One of them is left out, the kind too: under one key and version a text may open as"
        " kinds 2, 3 and 4 to three entries (1b).",
        "Nothing is said to be fixed, or it is said to hold whatever the ring or the version (1j,"
        " 1k).",
    ),
    Part(
        "one entry",
        3,
        "Why can a sealed text open to one entry only?",
        "Kind, ring and version are said to be given, anywhere in the answer, and two entries"
        " never have one text (4b), by any sound route. Undoing: unsealing undoes sealing, so two"
        " entries with one text would both be what it unseals to (4a). Tracing back: the same text"
        " has the same right block, so the same dropped byte, the same left block, the same input,"
        " the same body (3a). Either of them by contradiction. Counting: the texts that inputs"
        " ending in a zero byte give are all there are, and there are as many such inputs; a map"
        " from a finite set onto one of the same size takes no two to one; and two bodies never"
        " have one input. Each of these sentences is full as it stands; why its steps hold is"
        " asked under 'properties'. The checks are not needed, and leaving them out costs nothing"
        " here.",
        "A sound route, and nothing is said to be given. Or a step is left out that the route"
        " needs: where the candidate traces back, that the right block gives the dropped byte."
        " ('Unsealing undoes sealing' holds this step, and lacks nothing, where it is concluded"
        " from it that two entries have two texts.)",
        "The conclusion alone; a route that rests on a sentence which is false or no reason (2c,"
        " 3d, 9d); or chance: 'few texts open' is no argument, since 256^12 of kind 3 do.",
    ),
    Part(
        "one result",
        1,
        "In the place of 'one entry', where that part gets nothing.",
        "'Unsealing is a calculation and has one result.' That settles the bare words, that a"
        " text opens to one result. It shows neither that two entries never share a text nor that"
        " what opens was sealed (6c).",
        "",
        "Less than that, or 'one entry' got points.",
    ),
    Part(
        "properties",
        2,
        "Which property of each step of the sealing does your argument use?",
        "The steps that the argument uses, each with its property. Of the expansion: the body can"
        " be read out of it. Of BL1: the input ends in a zero byte, and the left output goes into"
        " the right block. Of the cipher: decryption undoes encryption under one key (2a). Who"
        " argues by undoing says why unsealing undoes sealing with the same three.",
        "One or two of the three are left out, or are named without their property.",
        "None of the three with its property, or only false reasons in their place: f can be"
        " undone (2c), S is a permutation (2d), the dropped byte is zero (3e). 'Each step has one"
        " result' is none of them.",
    ),
    Part(
        "without it",
        2,
        "What is no longer so without it?",
        "For each of expansion, BL1 and cipher, as far as the argument uses it, what is lost, in"
        " any words. The expansion: with a byte of the body left out two bodies have one input,"
        " and so one text. The zero byte, or the chaining: 256 inputs share a text (3b, 3d, 3c). A"
        " cipher that can be undone: two blocks may have one encryption, and two inputs one text"
        " (2e). What is lost without what is given (a text may open to other entries, too: 1b, 1j,"
        " 1k) or without the checks (5c, 5e) may stand in the place of one of these.",
        "At least one of all these, and not enough for full.",
        "Nothing, or only sentences that are false.",
    ),
    Part(
        "was sealed",
        2,
        "Why was every text that opens sealed from an entry?",
        "Each text comes from one input that ends in a zero byte; the checks pass only if that"
        " input is the expansion of a legal body, for kinds 2 and 5 with the three bits; so"
        " sealing that body gives the text (5a, 6a). That each text has such an input may be shown"
        " by sealing what BL2 gives, with 2a both ways, or by counting (3a). Or by counting alone:"
        " as many texts pass the checks as there are legal bodies, and the bodies' texts are all"
        " different and all pass (6d); a one-to-one map between sets of one size reaches all."
        " 'Number below 32' is the three bits, and kind 2 may stand for 5.",
        "'The checks pass, so the key is right', without that they pass on nothing but"
        " expansions; the three bits are left out where kinds 2 and 5 are spoken of (5e); or that"
        " sealing gives the text back is left out, or only said ('unsealing is the reverse of"
        " sealing'), where the checks are used.",
        "'Unsealing has one result, so it was sealed' (6c); 'it unseals to a key' (5b); or"
        " nothing.",
    ),
    # end parts
)

# What is done with a sentence that is none of the claims.
RULES: tuple[str, ...] = (
    # begin rules, made by `contracts write`
    "The points are proposed; a setter may weigh the parts otherwise, and decides what 'one"
    " result' is worth. Half is half of the points. What a sound route leaves unsaid because it"
    " does not need it costs nothing.",
    "A sentence is judged by what it says, not by its words. A true row about all kinds settles a"
    " sentence about one kind; a false row does so only for the kinds that its why or its instead"
    " speaks of. The words 'kind, ring and version given' may stand anywhere in the candidate's"
    " text.",
    "A sentence that no row settles, and that does not follow from rows in a step that the marker"
    " can write down, is neither proved nor refuted here. It wins nothing and costs nothing. If a"
    " part rests on it alone, two markers decide that part together; nobody is marked down for a"
    " sentence that has not been refuted.",
    "A false sentence costs the part that rests on it, and no other. Beside a sound argument that"
    " does not use it, it costs nothing.",
    "Of a false row, tick whether the candidate says it or denies it, and whether a reason is"
    " given. Where a denial with its reason names a property, or what is lost without one, it"
    " counts as that. Two entries of different kinds are two entries, though their bytes are the"
    " same (1a).",
    # end rules
)

CLAIMS: tuple[Claim, ...] = (
    # begin claims, made by `contracts write`
    Claim(
        "1a",
        "three-and-four",
        "A text opens as one kind only.",
        "false",
        "for all",
        "kinds 3 and 4 are sealed under the same key O, with the same expansion and checks",
        "Kinds 3 and 4 open the same texts, to the same twelve bytes.",
        "claims",
        "FalseClaims.ThreeAndFour",
        "KindClaims.three_and_four",
    ),
    Claim(
        "1b",
        "as-three-kinds",
        "Apart from kinds 3 and 4, a text opens as one kind only.",
        "false",
        "for all",
        "under every key some bytes pass the checks of EXP3 and of X16",
        "Under every O and version there is a text that opens as kinds 2, 3 and 4, to three"
        " different entries.",
        "claims",
        "FalseClaims.AsThreeKinds",
        "KindClaims.as_three_kinds",
    ),
    Claim(
        "1c",
        "kind-1-only",
        "A text of kind 1 opens as kind 1 only.",
        "false",
        "example",
        "D and O are different keys, but a text that passes the checks under both can be found",
        "One text opens as kind 1 and as kind 3, to two keys; under a ring of zeros one opens as"
        " all six kinds.",
        "example_claims",
        "Examples.OtherKinds",
        "ComputedClaims.other_kinds",
    ),
    Claim(
        "1d",
        "o-and-g-differ",
        "O and G differ, so kinds 2 and 5, or 3 and 6, can't be confused.",
        "false",
        "example",
        "under each of two different keys a text may pass the checks",
        "One text opens as kind 2 under O and as kind 5 under G, and one as kind 3 and as kind 6,"
        " to two keys each.",
        "example_claims",
        "Examples.ConfusedKinds",
        "ComputedClaims.confused_kinds",
    ),
    Claim(
        "1e",
        "same-o-and-g",
        "If O and G are the same, kind 5 is kind 2 and kind 6 is kind 3.",
        "true",
        "for all",
        "kinds 2 and 5, and 3 and 6, differ in the sealing key alone",
        "",
        "book_claims",
        "RecordSentences.SameOAndG",
        "RecordClaims.same_o_and_g",
    ),
    Claim(
        "1f",
        "key-and-version",
        "A text belongs to one sealing key and one version.",
        "false",
        "for all",
        "only the key ⊕ the repeated version goes into the cipher",
        "For each key and two versions there is a key that seals and unseals with the one version"
        " as this key does with the other.",
        "claims",
        "FalseClaims.KeyAndVersion",
        "KeyClaims.key_and_version",
    ),
    Claim(
        "1g",
        "other-keys-other-texts",
        "Other sealing keys give other texts.",
        "false",
        "for all",
        "for kinds 2 to 6 there are 256^16 sealing keys and 256^15 texts",
        "For kinds 2 to 6 two sealing keys give one text, for each version and each body. Of kind"
        " 1 nothing is said here.",
        "claims",
        "FalseClaims.TwoKeys",
        "KeyClaims.two_keys",
    ),
    Claim(
        "1h",
        "ring-and-versions",
        "A book's texts and encrypted identities belong to one ring.",
        "false",
        "for all",
        "D, O and G ⊕ two bytes repeated, and each version ⊕ those bytes, give the same texts; C"
        " is as it was",
        "There are other rings that give them, with other versions.",
        "claims",
        "FalseClaims.RingAndVersions",
        "RingClaims.ring_and_versions",
    ),
    Claim(
        "1i",
        "one-ring-only",
        "A sealed book opens under one ring only.",
        "false",
        "for all",
        "of D, O and G only those are used that the book's kinds name",
        "The empty book opens under every ring; and a book without kind 1 that opens under a ring"
        " opens with every other D in it, too, to the same book.",
        "book_claims",
        "BookSentences.ManyRings",
        "BookClaims.many_rings",
    ),
    Claim(
        "1j",
        "two-rings",
        "A text opens to one entry, whatever the ring.",
        "false",
        "example",
        "as kind 3, version 7, 7d3bf4c53bec9b33be0c296b64dc2f opens under O 00 01 .. 0f and under"
        " O 00 01 .. 0b 00 bf 58 8f to two keys; so it does as kinds 4 and 6, 1d has such a text"
        " of kinds 2 and 5, and of kind 1 nothing is shown",
        "Under two rings a text may open to two entries.",
        "claims",
        "FalseClaims.TwoRings",
        "ExampleClaims.two_rings",
    ),
    Claim(
        "1k",
        "two-versions",
        "A text opens to one entry, whatever the version.",
        "false",
        "example",
        "as kind 3 under O 00 01 .. 0f, f4204db56932c32411c2c607ad680c opens with versions 7 and"
        " 5075 to two keys; so it does as kinds 4 and 6; of kinds 1, 2 and 5 nothing is shown",
        "With two versions a text may open to two entries.",
        "claims",
        "FalseClaims.TwoVersions",
        "ExampleClaims.two_versions",
    ),
    Claim(
        "1l",
        "wrong-version-1",
        "For kind 1 a wrong version is always noticed.",
        "open",
        "",
        "neither a text that opens with two versions as kind 1 nor a proof that there is none is"
        " known here",
        "",
        "",
        "",
        "",
    ),
    Claim(
        "1m",
        "challenge-reversed",
        "TA22's challenge is reversed, as TA21's seed is.",
        "false",
        "example",
        "for the challenge 01 02 .. 0a, under the session key 00 01 .. 0f and with the masks 000f"
        " and 3ff0, response and key would be others than the standard's",
        "TA22 takes the challenge as it is.",
        "claims",
        "Variants.ChallengeReversed",
        "VariantClaims.challenge_reversed",
    ),
    Claim(
        "1n",
        "palindrome",
        "With TA22's challenge reversed response and key are always others.",
        "false",
        "for all",
        "a challenge that reads the same backwards is the same reversed",
        "Of a challenge that reads the same backwards they are the same, under every session key"
        " and with all masks.",
        "example_claims",
        "Examples.Palindrome",
        "ComputedClaims.palindrome",
    ),
    Claim(
        "1o",
        "last-byte-xored",
        "EXP2's last byte is the ⊕ of the five inserted bytes.",
        "false",
        "example",
        "it is their sum: for the seed 01 02 .. 0a it is 1f and not 0b, so for that seed TA41"
        " answers otherwise under every root",
        "It is their sum, without the carry out of eight bits.",
        "claims",
        "Variants.LastByteXored",
        "VariantClaims.last_byte_xored",
    ),
    Claim(
        "1p",
        "still-holds",
        "With TA22 or EXP2 wrong, a text could open to two entries, kind, ring and version given.",
        "false",
        "for all",
        "demand 3 holds of every ring of 52 bytes, so of whatever ring comes out",
        "As a rule another ring comes out; under it, too, each text opens to one entry at most,"
        " kind and version given.",
        "claims",
        "Variants.StillHolds",
        "VariantClaims.still_holds",
    ),
    Claim(
        "2a",
        "undone",
        "Decryption undoes encryption, and encryption undoes decryption.",
        "true",
        "for all",
        "each round is undone by the same round on the halves exchanged",
        "",
        "claims",
        "TrueClaims.Undone",
        "CipherClaims.undone",
    ),
    Claim(
        "2b",
        "f-bytes",
        "There are two halves that f takes to the same under one round key.",
        "true",
        "example",
        "under a round key of zeros 00 03 01 36 and 00 03 c1 36 both go to 01 9c 10 b0",
        "",
        "example_claims",
        "Examples.FBytes",
        "ComputedClaims.f_bytes",
    ),
    Claim(
        "2c",
        "f-collides",
        "The cipher can be undone because f can.",
        "false as a reason",
        "example",
        "two halves have one f (2b), so that nothing gives the half back",
        "Nothing undoes f; a round is undone by working f again.",
        "claims",
        "FalseClaims.FCollides",
        "CipherClaims.f_collides",
    ),
    Claim(
        "2d",
        "because-s-permutes",
        "The cipher can be undone because S is a permutation.",
        "false as a reason",
        "for all",
        "a round takes f of one half into the other by ⊕, and the same ⊕ takes it away",
        "Sixteen such rounds can be undone whatever f is.",
        "claims",
        "Reasons.WhateverF",
        "RoundClaims.whatever_f",
    ),
    Claim(
        "2e",
        "cipher-not-undone",
        "Without a cipher that can be undone two inputs that end in a zero byte would share a"
        " text.",
        "true",
        "for all",
        "if two blocks have one encryption, they can't be told apart in the left block",
        "",
        "claims",
        "TrueClaims.CipherNotUndone",
        "CoreClaims.cipher_not_undone",
    ),
    Claim(
        "2f",
        "encryption-hides",
        "Encryption hides the key.",
        "open",
        "",
        "that nobody can find the key from a text without the sealing key is a belief about the"
        " cipher; nothing here proves or refutes it",
        "",
        "",
        "",
        "",
    ),
    Claim(
        "3a",
        "nothing-lost",
        "The dropped byte loses nothing: every string of 15 bytes comes from exactly one input"
        " that ends in a zero byte.",
        "true",
        "for all",
        "the zero byte ⊕ the dropped byte is the last byte of the right block, decrypted",
        "",
        "claims",
        "TrueClaims.NothingLost",
        "CoreClaims.nothing_lost",
    ),
    Claim(
        "3b",
        "shared",
        "Without the zero byte exactly 256 inputs would share each text.",
        "true",
        "for all",
        "one for each value of the dropped byte, since BL1 on sixteen bytes can be undone",
        "",
        "claims",
        "TrueClaims.Shared",
        "CoreClaims.shared",
    ),
    Claim(
        "3c",
        "chaining",
        "The chaining brings the dropped byte back.",
        "true",
        "for all",
        "without it the right block knows nothing of the left, and each text that an input ending"
        " in a zero byte gives is given by 256 such inputs",
        "",
        "claims",
        "TrueClaims.Chaining",
        "CoreClaims.chaining",
    ),
    Claim(
        "3d",
        "fewer-keys",
        "There are fewer keys than texts, so each has its own text.",
        "false as a reason",
        "for all",
        "with the zero byte at another place of the input's right block there are as many inputs"
        " as texts, with two there fewer, and 256 of them share a text",
        "That there is room for each does not say that no two meet; that the input's last byte is"
        " zero does (3a).",
        "claims",
        "Reasons.FewerInputs",
        "CoreClaims.fewer_inputs",
    ),
    Claim(
        "3e",
        "dropped-byte-zero",
        "If the input ends in a zero byte, the dropped byte is zero.",
        "false",
        "for all",
        "it is a byte of the cipher's output",
        "It is each byte equally often: for each value, exactly 256^14 of the inputs that end in"
        " a zero byte have it as the dropped byte.",
        "claims",
        "FalseClaims.DroppedByte",
        "DroppedClaims.dropped_byte",
    ),
    Claim(
        "3f",
        "any-byte-put-back",
        "Any byte may be put back at B8.",
        "false",
        "for all",
        "BL2 takes that byte into the left block, which is then decrypted",
        "Another byte there gives another left part of BL2's output.",
        "claims",
        "FalseClaims.OtherByte",
        "DroppedClaims.other_byte",
    ),
    Claim(
        "3g",
        "bl2-is-bl1-backwards",
        "BL2 is BL1 backwards.",
        "false",
        "for all",
        "BL2 takes the last byte of the decrypted right block for the dropped byte",
        "With the zero byte at B8 it gives the input's first fifteen bytes back exactly if the"
        " input ends in a zero byte; with BL1's own byte there, exactly if that byte is the"
        " input's last.",
        "claims",
        "FalseClaims.NotBackwards",
        "DroppedClaims.not_backwards",
    ),
    Claim(
        "3h",
        "zero-at-end",
        "The zero byte can as well be put back at the end.",
        "false",
        "example",
        "the two blocks are then cut one byte further on: the text of the key 01 02 .. 0a with"
        " number 4660, of kind 3 under O 00 01 .. 0f with version 7, then fails all three checks",
        "It belongs where byte 8 was dropped.",
        "claims",
        "Variants.ZeroAtEnd",
        "VariantClaims.zero_at_end",
    ),
    Claim(
        "3i",
        "zero-at-end-either-way",
        "With the zero byte put back at the end no sealed text opens.",
        "false",
        "example",
        "as kind 3 under O 00 01 .. 0f, version 7, b23e9d02bd07830000000000000000 opens either"
        " way, since its last eight bytes are zeros",
        "A text whose last eight bytes are zeros is the same either way.",
        "example_claims",
        "Examples.EitherWay",
        "ComputedClaims.either_way",
    ),
    Claim(
        "4a",
        "undoes-sealing",
        "Unsealing undoes sealing.",
        "true",
        "for all",
        "BL2 undoes BL1 where the input ends in a zero byte, and shrinking undoes the expansion",
        "",
        "claims",
        "TrueClaims.SealingUndone",
        "EntryClaims.sealing_undone",
    ),
    Claim(
        "4b",
        "entries-never-share",
        "Two entries never share a text, kind, ring and version given.",
        "true",
        "for all",
        "both would be what the text unseals to",
        "",
        "claims",
        "TrueClaims.EntriesApart",
        "EntryClaims.entries_apart",
    ),
    Claim(
        "4c",
        "sealed-twice",
        "The same entry sealed twice under one ring gives two texts.",
        "false",
        "for all",
        "nothing goes into a text but kind, sealing key, version and body",
        "Under one ring two records of one kind, version and body have the same text, wherever"
        " they stand and whatever their identities.",
        "claims",
        "FalseClaims.SealedTwice",
        "IdentityClaims.sealed_twice",
    ),
    Claim(
        "4d",
        "every-bit",
        "A key's every bit changes the whole text.",
        "false",
        "for all",
        "the left block is encrypted before the right one is looked at",
        "A change of a key's byte from the seventh on, for kinds 3, 4 and 6 from the eighth on,"
        " leaves the text's first seven bytes as they were.",
        "claims",
        "FalseClaims.EveryBit",
        "FrontClaims.every_bit",
    ),
    Claim(
        "5a",
        "checks-exactly",
        "The checks pass exactly on the expansions of legal bodies, and shrinking gives the body.",
        "true",
        "for all",
        "the inserted bytes follow from the others, for kinds 2 and 5 the three bits are zero,"
        " and shrinking keeps the rest",
        "",
        "claims",
        "TrueClaims.ChecksExactly",
        "EntryClaims.checks_exactly",
    ),
    Claim(
        "5b",
        "unseals-all-the-same",
        "A text whose flag is set unseals to a key all the same.",
        "true",
        "for all",
        "the key's bytes are taken out whether the inserted bytes are right or not",
        "",
        "claims",
        "TrueClaims.UnsealsAllTheSame",
        "FlagClaims.unseals_all_the_same",
    ),
    Claim(
        "5c",
        "without-any-check",
        "Without any check exactly 256^5 texts of kind 1, 8 · 256^4 of kinds 2 and 5, and 256^3"
        " of kinds 3, 4 and 6 unseal to each entry.",
        "true",
        "for all",
        "one for each value of the inserted bytes, and of the three bits",
        "",
        "claims",
        "TrueClaims.WithoutChecks",
        "UncheckedClaims.without_checks",
    ),
    Claim(
        "5d",
        "seven-others",
        "For kinds 2 and 5 exactly seven other texts unseal to an entry's key and number and fail"
        " the check of the three zero bits alone.",
        "true",
        "for all",
        "the number is five bits of its byte, and the other three have seven other values",
        "",
        "claims",
        "TrueClaims.SevenOthers",
        "BitsClaims.seven_others",
    ),
    Claim(
        "5e",
        "eight-without",
        "Without the check of the three zero bits eight texts would open to one entry of kinds 2"
        " and 5, and for seven of them sealing would not give the text back.",
        "true",
        "for all",
        "the seven of 5d and the sealed text, which alone has the three bits zero",
        "",
        "claims",
        "TrueClaims.EightWithout",
        "BitsClaims.eight_without",
    ),
    Claim(
        "5f",
        "bits-unchecked",
        "The number byte's three top bits need no check.",
        "false",
        "for all",
        "sealing leaves them zero, so a text with others was not sealed",
        "Without it, under every sealing key and version a text would open as kinds 2 and 5 that"
        " is the sealed text of no entry of theirs, key and version given.",
        "claims",
        "Variants.BitsUnchecked",
        "BitsClaims.bits_unchecked",
    ),
    Claim(
        "5g",
        "one-byte-of-output",
        "Where no check of BL2's output fails, a change of one byte of it is always noticed.",
        "true",
        "for all",
        "it stands in one group, whose ⊕ then differs, or is the inserted byte itself",
        "",
        "claims",
        "TrueClaims.OneOfOutput",
        "ChangeClaims.one_of_output",
    ),
    Claim(
        "5h",
        "equal-changes",
        "Two changed bytes of BL2's output are always noticed.",
        "false",
        "for all",
        "two equal changes in one group leave its ⊕ as it was",
        "Two equal changes in one group are not noticed, unless, for kinds 2 and 5, they touch"
        " the top three bits of the number byte.",
        "claims",
        "FalseClaims.EqualChanges",
        "ChangeClaims.equal_changes",
    ),
    Claim(
        "6a",
        "one-text",
        "For a given kind, ring and version a text opens exactly if it is the sealed text of an"
        " entry, of one and no other.",
        "true",
        "for all",
        "3a and 5a, one after the other",
        "",
        "claims",
        "TrueClaims.OneText",
        "EntryClaims.one_text",
    ),
    Claim(
        "6b",
        "texts-never-share",
        "Two texts never open to one entry, kind, ring and version given.",
        "true",
        "for all",
        "each is the sealed text of what it opens to",
        "",
        "claims",
        "TrueClaims.TextsApart",
        "EntryClaims.texts_apart",
    ),
    Claim(
        "6c",
        "one-result-so-sealed",
        "Unsealing has one result, so what opens was sealed.",
        "false as a reason",
        "for all",
        "for kinds 2 and 5 the unsealing without the check of the three bits has one result, too,"
        " and gives every entry back",
        "By that unsealing, under every sealing key and version, a text opens that is the sealed"
        " text of no entry of that kind, key and version given.",
        "claims",
        "Reasons.OneResult",
        "BitsClaims.one_result",
    ),
    Claim(
        "6d",
        "how-many",
        "Of the 256^15 texts exactly as many open as there are legal bodies: 256^10 of kind 1, 32"
        " · 256^10 of kinds 2 and 5, 256^12 of kinds 3, 4 and 6.",
        "true",
        "for all",
        "by 6a they stand one to one with the legal bodies, and those with the numbers below that"
        " count",
        "",
        "claims",
        "TrueClaims.HowMany",
        "CountClaims.how_many_lem",
    ),
    Claim(
        "7a",
        "one-record",
        "Under a given ring a sealed record opens exactly if it is the sealed form of a plain"
        " record, of one and no other, its identity included.",
        "true",
        "for all",
        "6a, and TA61 can be undone",
        "",
        "claims",
        "TrueClaims.OneRecord",
        "EntryClaims.one_record_lem",
    ),
    Claim(
        "7b",
        "record-alone",
        "A record by itself opens as a book of one record does.",
        "true",
        "for all",
        "a book is opened record by record",
        "",
        "claims",
        "TrueClaims.RecordAlone",
        "EntryClaims.record_alone",
    ),
    Claim(
        "7c",
        "identity-free",
        "The flag protects the identity.",
        "false",
        "for all",
        "the flag is worked from kind, version, the sealing key and the text, and every three"
        " bytes are some identity, encrypted",
        "With any other encrypted identity a record that opens goes on opening, to another"
        " identity with the same kind, version and body; one that does not open goes on not"
        " opening.",
        "claims",
        "FalseClaims.IdentityFree",
        "IdentityClaims.identity_free",
    ),
    Claim(
        "7d",
        "wrong-c",
        "A wrong C sets the flag.",
        "false",
        "for all",
        "C enters TA61 alone",
        "With another C a record that opens opens to the same kind, version and body, and one"
        " that does not open does not; of the identity nothing is said here.",
        "book_claims",
        "RecordSentences.CommonKeyFree",
        "RecordClaims.common_key_free",
    ),
    Claim(
        "7e",
        "texts-exchanged",
        "A text belongs to the record in which it stands, among those of the same kind and"
        " version.",
        "false",
        "for all",
        "a text knows its kind's key and its version, and no identity",
        "Two records of the same kind and version that open under a ring may exchange their"
        " texts: each opens to its own identity with the other's body.",
        "claims",
        "FalseClaims.TextsExchanged",
        "IdentityClaims.texts_exchanged",
    ),
    Claim(
        "7f",
        "kind-byte-protected",
        "The kind byte is protected.",
        "false",
        "for all",
        "it goes into the text only by the sealing key and the expansion that it names, and kinds"
        " 3 and 4 have both in common",
        "A record of kind 3 that opens, opens with kind byte 4, too, to the same identity,"
        " version and body.",
        "book_claims",
        "RecordSentences.KindByteFree",
        "RecordClaims.kind_byte_free",
    ),
    Claim(
        "8a",
        "one-book",
        "Under a given ring a book opens exactly if it is what sealing makes of a well-formed"
        " plain book, of one and no other.",
        "true",
        "for all",
        "7a of each record, in order",
        "",
        "claims",
        "TrueClaims.OneBook",
        "EntryClaims.one_book",
    ),
    Claim(
        "8b",
        "within-a-book",
        "A book opens exactly if each of its records does alone, and each then opens to what it"
        " opens to alone.",
        "true",
        "for all",
        "no record's opening looks at another",
        "",
        "book_claims",
        "BookSentences.WithinABook",
        "BookClaims.within_a_book",
    ),
    Claim(
        "8c",
        "spoils-only-itself",
        "One bad record spoils only itself.",
        "false",
        "for all",
        "a book is refused before anything is written",
        "The whole book is refused, and nothing is written.",
        "book_claims",
        "BookSentences.Spoiled",
        "BookClaims.spoiled",
    ),
    Claim(
        "8d",
        "missing",
        "A missing record is noticed.",
        "false",
        "for all",
        "a book has no count of its records but its length",
        "A book that opens goes on opening with a record left out.",
        "book_claims",
        "BookSentences.Missing",
        "BookClaims.missing",
    ),
    Claim(
        "8e",
        "doubled",
        "A doubled record is noticed.",
        "false",
        "for all",
        "no record knows of another",
        "A book of fewer than 1,024 records that opens goes on opening with a record in it twice.",
        "book_claims",
        "BookSentences.Doubled",
        "BookClaims.doubled",
    ),
    Claim(
        "8f",
        "reordered",
        "A changed order of records is noticed.",
        "false",
        "for all",
        "no record knows its place",
        "A book that opens goes on opening with its records in another order, to the plain book"
        " in that order.",
        "book_claims",
        "BookSentences.OrderChanged",
        "BookClaims.order_changed",
    ),
    Claim(
        "9a",
        "carried",
        "A change of one byte, of a text's first seven, goes into the right part of BL2's output"
        " as it is.",
        "true",
        "for all",
        "those seven bytes are ⊕ into it, and the right block is as it was",
        "",
        "claims",
        "TrueClaims.Carried",
        "FlagClaims.carried",
    ),
    Claim(
        "9b",
        "noticed",
        "Of a text that opens the flag notices each change of one byte: from the second to the"
        " seventh for kind 1, from the fourth to the seventh for kinds 2 and 5, from the third to"
        " the seventh for kinds 3, 4 and 6.",
        "true",
        "for all",
        "the byte's whole group stands in the right part, where that byte alone has changed",
        "",
        "claims",
        "TrueClaims.Noticed",
        "FlagClaims.noticed",
    ),
    Claim(
        "9c",
        "sharp",
        "Of some text a change of each other byte goes unnoticed: of the first for kind 1, of the"
        " first three for kinds 2 and 5, of the first two for kinds 3, 4 and 6, and of the last"
        " eight for all.",
        "true",
        "example",
        "for each of them there is a text that opens before and after a change of it",
        "",
        "example_claims",
        "Sharp.Sharp",
        "SharpClaims.sharp",
    ),
    Claim(
        "9d",
        "flag-notices-every-change",
        "The flag notices every change.",
        "false",
        "example",
        "as kind 3, version 7, under O 00 01 .. 0f, f20234e6a621c279ee4f4cf0ad6279 and"
        " f20034e6a621c279ee4f4cf0ad6279 differ in one bit and open to different keys; so they do"
        " as kinds 4 and 6, and 9e has kinds 1, 2 and 5",
        "From a text that opens, a change of one bit may lead to another that opens.",
        "claims",
        "FalseClaims.OneBit",
        "ExampleClaims.one_bit",
    ),
    Claim(
        "9e",
        "one-byte-1-2-5",
        "For kinds 1, 2 and 5 the flag notices every change of one byte.",
        "false",
        "example",
        "with version 7, of kind 1 under D 00 01 .. 09 541f2a277684453cad9193d1e0acaa and the"
        " same with d4 in front open, of kind 2 under O 00 01 .. 0f (and so of kind 5 under such a"
        " G) 57b82885ccb448198c9d93bb19ec5f and the same with dc for 28",
        "A change of the first byte may go unnoticed for kind 1, and one of the third for kinds 2"
        " and 5.",
        "example_claims",
        "Examples.OneByte",
        "ComputedClaims.one_byte",
    ),
    Claim(
        "9f",
        "last-eight",
        "A change in the last eight bytes is always noticed.",
        "false",
        "for all",
        "the left block stays as it is where the body's first bytes do",
        "Beside every text that opens there is another that opens and has the same first seven"
        " bytes.",
        "claims",
        "FalseClaims.LastEight",
        "FrontClaims.last_eight",
    ),
    Claim(
        "10a",
        "equal-records",
        "Give entries of the model a record of the hand-in with the bytes of their sealed record,"
        " no record to two, until no more can be given: the number is the same however it is done,"
        " and no pairing counts more.",
        "true",
        "for all",
        "of each record's copies the smaller of the two books' numbers can be paired",
        "",
        "book_claims",
        "Marking.MostPaired",
        "MarkingClaims.most_paired",
    ),
    Claim(
        "10b",
        "order-of-books",
        "The number of equal records does not depend on the order of either book.",
        "true",
        "for all",
        "it is worked from how often each record stands in each book",
        "",
        "book_claims",
        "Marking.AnyOrder",
        "MarkingClaims.any_order",
    ),
    Claim(
        "10c",
        "copies-beyond",
        "Copies beyond the model's own add nothing.",
        "true",
        "for all",
        "each needs an entry of its own in the model",
        "",
        "book_claims",
        "Marking.CopiesAddNothing",
        "MarkingClaims.copies_add_nothing",
    ),
    Claim(
        "10d",
        "all-right",
        "Every entry of the model has its equal record, and no record is over, exactly if the"
        " hand-in is a reordering of the model's sealed form; such a hand-in opens to the model"
        " reordered alike.",
        "true",
        "for all",
        "each record then stands in both books equally often",
        "",
        "book_claims",
        "Marking.FullMark",
        "MarkingClaims.full_mark",
    ),
    # end claims
)
