"""Passages of rule files: what stands at a formula, a rule or a declaration, with the comments there."""
import bisect

from . import places, reasons, source

ERRORS = ("anomalie", "discordance", "informative")


class Comments:
    """The comments of a file by their lines, those that have their line to themselves, and the last line of those with which the file begins."""

    def __init__(self, file):
        self.texts, self.alone, self.heading = {}, set(), 0
        at, seen = 0, 0
        while at < len(file.bytes):
            piece = source.GAP_OR_TOKEN.match(file.bytes, at)
            if piece is None:
                at += 1
                continue
            line = file.lines.number(at)
            if file.bytes[at : at + 1] == b"#":
                self.texts[line] = places.decode(piece[0].lstrip(b"#").strip())
                if seen != line:
                    self.alone.add(line)
            elif piece.lastgroup != "gap":
                seen = file.lines.number(piece.end() - 1)
            at = piece.end()
        while self.heading + 1 in self.alone:
            self.heading += 1

    def at(self, first, last):
        """The comments within the lines of a piece, and those on the lines right above it, but for the heading of the file."""
        above = first - 1
        while above in self.alone and above > self.heading:
            above -= 1
        return [self.texts[line] for line in range(above + 1, last + 1) if self.texts.get(line)]


class Passages:
    """A rule file, whose pieces are found by a byte within them."""

    def __init__(self, file):
        self.file, self.tokens, self.comments = file, list(file.tokens), Comments(file)
        self.bytes = [token.byte for token in self.tokens]
        self.ends = [k for k, token in enumerate(self.tokens) if token.text == ";" and token.kind == "sign"]
        self.rules = [k for k, token in enumerate(self.tokens) if token.text == "regle"]

    def line(self, token):
        return self.file.lines.number(self.tokens[token].byte)

    def bounds(self, byte):
        """The first and the last token of the item, or the formula with its loops, in which a byte is; the last one is its `;`."""
        at = bisect.bisect_right(self.bytes, byte) - 1
        end = bisect.bisect_left(self.ends, at)
        return (self.ends[end - 1] + 1 if end else 0), self.ends[end]

    def comments_at(self, byte):
        first, last = self.bounds(byte)
        return self.comments.at(self.line(first), self.line(last))

    def formula(self, byte):
        """A formula: its text, its line, the number of its rule, and the comments of both."""
        first, last = self.bounds(byte)
        head = self.rules[bisect.bisect_right(self.rules, first) - 1]
        number = next(token.text for token in self.tokens[head:first] if token.kind == "number")
        comments = dict.fromkeys([*self.comments_at(self.tokens[head].byte), *self.comments_at(byte)])
        text = reasons.plain(self.file.bytes[self.tokens[first].byte : self.tokens[last].byte])
        return [text, self.line(first), int(number), list(comments)]

    def declaration(self, byte):
        """What a declaration says: its description, its type, the number of a constant, and its comments."""
        first, last = self.bounds(byte)
        tokens = self.tokens[first : last + 1]
        texts = [places.decode(token.text[1:-1].encode("latin-1")) for token in tokens if token.kind == "text"]
        word = tokens[-2].text if len(tokens) > 3 and tokens[-3].text == "type" else ""
        number = "".join(token.text for token in tokens[4:-1]) if tokens[2].text == "const" else ""
        return [texts[-1] if texts else "", word, number, self.comments_at(byte)]

    def heading(self):
        """The comment with which the file begins, which may name the article that all of it is of."""
        texts = self.comments.texts
        return " ".join(texts[line] for line in range(1, self.comments.heading + 1) if texts[line])

    def errors(self):
        """The errors that are declared: the name and the text for people, which is the fourth."""
        for k, token in enumerate(self.tokens[:-3]):
            if token.kind == "word" and self.tokens[k + 1].text == ":" and self.tokens[k + 2].text in ERRORS:
                texts = [each for each in self.tokens[k + 3 : k + 12] if each.kind == "text"][:4]
                yield token.text, places.decode(texts[-1].text[1:-1].encode("latin-1"))
