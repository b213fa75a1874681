"""The words that this project doesn't use, each with a better one, and the patterns by which the check finds them.

A pattern accepts the right uses of an ambiguous word: "where" for a place, "behind" in space, "stands for", "at least".
Each kind has a planted sentence that is refused, and if it is ambiguous, also sentences that are accepted.
"""

import re

# Nouns of a place, and verbs of saying, before a right use of "where".
PLACE = (
    r"places?|folders?|files?|lines?|pages?|points?|sections?|rows?|columns?|director(?:y|ies)|bytes?|offsets?|positions?|lanes?|machines?"
    r"|cells?|tables?|logs?|disks?|systems?|hosts?|platforms?|networks?|pictures?|steps?|addresse?s?|ports?"
)
SAYING = r"says?|said|knows?|know|sees?|shows?|finds?|found|reports?|records?|prints?|marks?|decides?|from|to|is|are|of|about|near|out"

# What carries or contains something, and what a program accepts.
MESSAGE = r"packets?|messages?|states?|responses?|replies|reply|acks?"
GIVEN = (
    r"packets?|events?|queries|query|options?|flags?|messages?|states?|words?|arguments?|lines?|files?|settings?|names?|texts?|values?"
    r"|tags?|paths?"
)
ARRIVING = (
    r"events?|queries|query|packets?|messages?|lines?|states?|answers?|responses?|acks?|repl(?:y|ies)|bytes?|calls?|signals?|members?"
    r"|it|they|that|what|which|who|those|these|nothing|none|one|ones|more|else|all"
)
PROGRAM = (
    r"programs?|agents?|commands?|tools?|scripts?|nodes?|librar(?:y|ies)|serf|kernel|provers?|toolchains?|handlers?|hosts?|gates?|callers?"
    r"|compilers?"
)
PERSON = (
    r"some(?:body|one)|any(?:body|one)|every(?:body|one)|nobody|people|persons?|readers?|operators?|users?|maintainers?|attackers?"
    r"|engineers?|colleagues?|authors?|developers?"
)


class Phrase:
    """A kind of word: its name, the better word, its pattern, what is refused, and what is accepted. Texts without any of
    its stems are not searched."""

    def __init__(self, name, better, stems, pattern, refused, *accepted):
        self.name, self.better, self.stems, self.refused, self.accepted = name, better, stems.split(), refused, accepted
        self.form = re.compile(pattern, re.I)

    def found_in(self, text):
        """Where the words are in a text."""
        lower = text.lower()
        return self.form.finditer(text) if any(stem in lower for stem in self.stems) else ()


PHRASES = [
    Phrase(
        "behind", "after", "behind",
        r"(?<!left )(?<!leaves )(?<!leave )\bbehind\b(?=\s+[^\s.,;])",
        "It starts again behind a kill.",
        "A script left a file behind.",
        "It is left behind by a script.",
    ),
    Phrase(
        "where",
        "if, when, that",
        "where",
        rf"(?<![.:;|(*] )(?<!^)(?<!^[-*|] )\b(?<!\w-)(?:(?!\b(?:{PLACE}|{SAYING}),? where)\b\w+,? |[^\w\s:] ?)where\b(?! to\b|ver|by|as)"
        r"|(?:^|[.:;|(*] ?|\b(?:and|or) )(?-i:Where) (?!to\b)[^.;:|]*,",
        "It ends with status 1, where there is no file.",
        "In the folder where the archive is, run it.",
        "It says where the line is.",
        "Each table of a page: where it begins, and its rows.",
        "Where to read on",
    ),
    Phrase(
        "stands", "is, is in, appears", "stand stood",
        r"\b(?:stands?|stood)\b(?! for\b|-)",
        "Each name stands twice.",
        "A star stands for all names.",
    ),
    Phrase(
        "goes on", "continues, resumes", "go went",
        r"\b(?:go|goes|went|going|gone) on\b",
        "The agent goes on with its file.",
    ),
    Phrase(
        "comes", "arrives, is received", "come came",
        rf"\b(?:{ARRIVING}) (?:comes?|came)\b(?! from\b| to\b| with\b| and go\b| before\b| after\b)",
        "An event that comes is checked.",
        "The rule comes from Serf.",
        "Members come and go.",
    ),
    Phrase(
        "brings", "carries, contains", "bring brought has have",
        rf"\b(?:brings?|brought)\b|\b(?:{MESSAGE}) ha(?:s|ve) (?:a|an|the|its|no|one|two|\w+s)\b",
        "A packet has a name and a payload.",
        "The agent has a file.",
    ),
    Phrase(
        "takes", "accepts", "take took",
        r"\b(?:takes?|took|taken) (?:(?:a|an|the|its|any|no|each|every|all|more|other|these|those|that|only|new) )+(?:[\w-]+ )?"
        rf"(?:{GIVEN})\b",
        "The call takes a packet.",
        "The proof takes an hour.",
    ),
    Phrase(
        "takes back", "restores", "back",
        r"\b(?:take|takes|took|taken|taking) back\b",
        "A restart takes back the events.",
    ),
    Phrase(
        "notes", "appends, writes", "not",
        r"\b(?:notes?|noting) (?:a|an|the|its|no|each|one|what|these|lines?|them|it|how|which|whether)\b|\bnoted\b",
        "It notes a line of each.",
        "Note that it stops.",
    ),
    Phrase(
        "tells", "reports, prints, logs, returns", "tell told",
        r"(?<!you )\b(?:(?-i:tell)|tells|told)\b(?! apart\b|(?: [\w-]+){1,3} from\b)",
        "The log tells of it.",
        "Two packets can be told apart.",
        "Nobody can tell an old packet from a new one.",
        "Tell the others before you stop it.",
    ),
    Phrase(
        "says", "reports, prints, logs, returns", "say said",
        rf"\b(?:{PROGRAM}) (?:says?|said)\b",
        "The agent says that it is full.",
        "SPEC.md says what it means.",
    ),
    Phrase("asks for", "requests, requires", "ask", r"\b(?:ask|asks|asked|asking) for\b", "The query asks for an ack."),
    Phrase(
        "gives", "result, returns", "give gave",
        r"(?<!always )\b(?:(?-i:give)|gives|gave)\b(?! up\b| way\b)(?! (?!an? |the |its |no )[\w'-]+ (?:[\w'-]+ ){0,2}an?\b)",
        "The call gave three events.",
        "It gives up after a minute.",
        "Give each node its own file.",
        "It gives memberlist a copy.",
    ),
    Phrase(
        "greatest", "maximum, largest", "greatest lesser least most",
        r"\b(?:greatest|lesser)\b|\b(?:the|a|its|their|one|same) (?:least|most)\b"
        r"(?= (?:time|count|number|size|length|bytes?|id|minimum|of them)\b|[,.;]|$)",
        "It has the greatest time.",
        "At least one is left, and at most three.",
        "The stream that holds the most is closed.",
    ),
    Phrase(
        "who", "the node that, the caller", "who",
        r"(?:^|[.:;] )(?-i:Who) [^?.]*(?:[.]|$)"
        r"|\b(?:nodes?|agents?|members?|callers?|programs?|process(?:es)?|hosts?|clients?|senders?|peers?|handlers?|scripts?) who\b"
        r"|\b(?:tools?|those|one|that) who\b"
        rf"|(?<!\w)(?:(?!(?:{PERSON}) )\w+ )who has\b",
        "Who fires it again has two events.",
        "Who runs it?",
        "It is for somebody who has a cluster.",
    ),
    Phrase(
        "such", "these, of this kind", "such",
        r"\bof such\b(?! an?\b)|(?<!\bno )\bsuch (?!as\b|a\b|an\b|that\b)\w+",
        "The errors of such packets differ.",
        "Packets such as acks are short.",
        "Such a packet is dropped.",
        "The name of such a packet is short.",
        "no such file or directory",
    ),
    Phrase(
        "look", "inspect, check, dump", "look",
        r"\b(?:look|looks|looked|looking) at\b|\b(?:the|each|every|no|its|of|two|many) looks?\b",
        "It looks at each packet.",
        "Look for the line.",
    ),
    Phrase(
        "fits to", "matches, supports", "fit",
        r"\bfit(?:s|ted|ting)? to\b",
        "The reply fits to the query.",
        "It fits the screen.",
    ),
    Phrase("fault", "error", "fault", r"\bfaults?\b(?!-| injection)", "The parser answers its fault."),
    Phrase(
        "want", "allocation failure, out of memory", "want",
        r"\bwant of\b|\bwanting\b|\bmemory wants\b",
        "It ends for want of memory.",
    ),
    Phrase("unwritten", "pending", "unwritten", r"\bunwritten\b", "The bytes are unwritten."),
    Phrase(
        "deed", "operation, step", "deed doing",
        r"\bdeeds?\b|\b(?:a|the|its|each|one|every|of) doings?\b",
        "Each deed has a line.",
        "It ends without doing so.",
    ),
    Phrase("night", "an incident", "night", r"\bnights?\b", "This page has a bad night."),
    Phrase(
        "beside", "next to, alongside, compared with", "beside",
        r"\bbeside\b",
        "The file is beside its log.",
        "Besides, it is small.",
    ),
    Phrase("lent", "borrowed", "lent", r"\blent\b", "The texts are lent."),
    Phrase(
        "of its own", "separate, its own", "own",
        r"\bof (?:its|their|his|her) own\b(?! (?:times?|kind|name)\b)",
        "It has a folder of its own.",
        "It has its own folder.",
        "It ends events of its own time.",
    ),
    Phrase(
        "wants", "needs", "want",
        r"\bwants\b(?! to\b)|\b(?:is|are|was|were|be) wanted\b",
        "The function wants two words.",
        "If you want to stop it, press a key.",
    ),
    Phrase(
        "counts", "overrides, takes precedence", "count",
        r"\bcounts? (?:more|less|first|most)\b|\b(?:flags?|options?|files?|settings?|rows?) counts?\b",
        "A flag counts more than a file.",
        "It counts the lines.",
    ),
    Phrase(
        "comes together", "is merged", "together",
        r"\b(?:come|comes|came|coming) together\b",
        "Lists and tags come together.",
    ),
    Phrase(
        "bear", "keep up with", "bear bore",
        r"\bbears?\b(?! in mind)|\bbore\b",
        "More arrives than the disk bears.",
        "Bear in mind that it is slow.",
    ),
    Phrase(
        "goes", "is removed", "go went",
        r"\b(?:go|goes|went|going) (?:away|with it)\b|\b(?:is|are|was|were|be|been) gone\b",
        "The file went with it.",
        "The line goes to the log.",
    ),
    Phrase(
        "room", "the limit of .. is reached", "room",
        r"\bno more room than\b|\bmore room than\b",
        "There is no more room than 64 bytes.",
    ),
    Phrase(
        "honest clock", "implausibly far ahead", "honest farther",
        r"\bhonest clocks?\b|\bfarther than\b",
        "Its time is farther than any honest clock.",
    ),
    Phrase(
        "at last", "last, finally", "last end",
        r"\bat last\b|\bin the end\b|\bthe last one\b",
        "It ends at last.",
        "The last line ends.",
    ),
    Phrase(
        "twin", "duplicates, the same structure", "twin shape",
        r"\btwins?\b|\bof (?:one|a|the same) shapes?\b",
        "These two are twins.",
        "The shape of a value is a tree.",
    ),
    Phrase(
        "house", "the repository, modules", "house rooms",
        r"\b(?:the|a|this|our) house\b|\brooms\b",
        "The house has a rule.",
        "There is room for two.",
    ),
]
