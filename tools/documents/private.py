"""Words of this project alone, each with the field's word, which documents use in its place.

Left out are words that are ordinary English in another sense, too: admit, answer, come, draw, end, front, go, least,
place, room, stand, take, tell and where; and verdict, which is the prover's.
"""

import re

import markdown

WORDS = (
    (r"spell|spells|spelled|spelling|spellings|spelt", "encode, encoding"),
    (r"proper fronts?", "prefix, truncation"),
    (r"wants? (?:of |no |any )?memory", "out of memory, may allocate"),
    (r"memory (?:is|was) refused|refused (?:for )?memory", "out of memory, an allocation fails"),
    (r"moments?", "time, or the name of the type"),
    (r"judge|judges|judged|judging|judgements?", "verify, verifier"),
    (r"first faults?", "first error"),
    (r"spoilt", "mutated"),
    (r"truth values?", "bool"),
    (r"anew", "again"),
    (r"by turns", "interleaved"),
    (r"the greatest `", "`usize::MAX` or the maximum of that type"),
    (r"worked rows?|rows? \d+(?: [a-c])?", "worked example"),
    (r"turns its meaning", "a mutant"),
    (r"beside", "next to, in addition to"),
    (r"must-fail edits?|wrong bod(?:y|ies)", "mutant, mutant that must be rejected"),
    (r"torn down", "must be disconnected"),
    (r"sharable", "that may be shared"),
    (r"the own (?:info|key)s?", "local info, local key"),
    (r"those in the middle|(?:the )?middle values?", "median"),
    (r"as not (?:made|given)", "has no effect"),
    (r"but for", "except"),
    (r"listen(?:s|ed)? for", "accept, inbound"),
)
PATTERNS = [(re.compile(rf"(?<!\w)(?:{words})(?!\w)", re.I), instead) for words, instead in WORDS]


def check(blocks):
    """Returns the private words of a document outside code and quotes, each with its line."""
    for block in blocks:
        if block.kind in ("code", "quote"):
            continue
        text = re.sub(r"\]\([^)]*\)", "]", markdown.without_spans(block.text))
        for pattern, instead in PATTERNS:
            for match in pattern.finditer(text.replace("\n", " ")):
                line = block.line + text.count("\n", 0, match.start())
                yield line, f"private word: {match[0]} (use: {instead})"
