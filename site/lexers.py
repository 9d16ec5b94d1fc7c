"""What is highlighted in code: Rattle, which is Rust with the words of contracts, and antt, the language of definitions and proofs."""

from pygments.lexer import RegexLexer, words
from pygments.lexers.rust import RustLexer
from pygments.token import Comment, Error, Keyword, Name, Number, Operator, Punctuation, String, Text

__all__ = ["Antt", "Rattle"]
CONTRACT = {"decreases", "ensures", "ghost", "invariant", "promises", "requires", "returns"}
ANTT = """
    abbrev by case data else field ghost if in invariant let loop match mod module of open pub record returns sets then unfolding
    use where with
""".split()


class Rattle(RustLexer):
    name = "Rattle"

    def get_tokens_unprocessed(self, text):
        for place, token, value in super().get_tokens_unprocessed(text):
            if token is Error:
                yield place, Operator, value
            else:
                yield place, Keyword if token in Name and value in CONTRACT else token, value


class Antt(RegexLexer):
    name = "Antt"
    tokens = {
        "root": [
            (r"\s+", Text),
            (r"--.*$", Comment.Single),
            (r'"[^"\n]*"', String),
            (words(ANTT, prefix=r"(?<![\w.◌-])", suffix=r"(?![\w◌-])"), Keyword),
            (r"(Type|ℕ)(?![\w◌-])", Keyword.Type),
            (r"(?<![\w-])\d+(?![\w-])", Number),
            (r"[^\W\d_a-z][\w◌'-]*", Name.Class),
            (r"[\w◌][\w◌'-]*", Name),
            (r"[(){}\[\];,.]", Punctuation),
            (r".", Operator),
        ]
    }
