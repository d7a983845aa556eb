"""Colours Janus wherever Pygments is asked: in `jupyter console`, `jupyter nbconvert`, Sphinx and `pygmentize`."""
from pygments.lexer import RegexLexer, bygroups, words
from pygments.token import Comment, Error, Keyword, Name, Number, Operator, Punctuation, Text

__all__ = ['JanusLexer']

NAME = r'[A-Za-z][A-Za-z0-9_]*'
KINDS = ('int', 'stack')
WORDS = ('call', 'delocal', 'do', 'else', 'empty', 'fi', 'from', 'if', 'local', 'loop', 'main', 'nil', 'pop', 'procedure', 'push', 'skip', 'then', 'top',
         'uncall', 'until')
LARGEST = 2147483647


def number(lexer, found):
    """A number past the largest is refused by the language."""
    yield found.start(), Number.Integer if int(found.group()) <= LARGEST else Error, found.group()


class JanusLexer(RegexLexer):
    """The cells of the reversible language Janus."""
    name = 'Janus'
    aliases = ['janus']
    filenames = ['*.janus']
    mimetypes = ['text/x-janus']

    tokens = {
        'root': [
            (r'\s+', Text),
            (r'//[^\n]*', Comment.Single),
            (rf'(procedure)(\s+)(main)\b', bygroups(Keyword, Text, Keyword)),
            (rf'(procedure|call|uncall)(\s+)(?!(?:{"|".join(WORDS + KINDS)})\b)({NAME})', bygroups(Keyword, Text, Name.Function)),
            (words(KINDS, prefix=r'\b', suffix=r'\b'), Keyword.Type),
            (words(WORDS, prefix=r'\b', suffix=r'\b'), Keyword),
            (NAME, Name.Variable),
            (r'[0-9]+', number),
            (r'\+=|-=|\^=|&&|\|\||!=|<=>|<=|>=|[-+*/%^&|=<>]', Operator),
            (r'[()\[\],]', Punctuation),
            (r'.', Error),
        ],
    }
