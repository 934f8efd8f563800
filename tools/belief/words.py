"""The words of a piece of a definition or of a clause: which names it uses that it doesn't bind itself."""
import re

TRAIT_MEMBER = re.compile(r'⟦<([^<>]*?) as (\w+)[^⟧]*?>⟧\.(\w+)')
FIELD_OF_RECORD = re.compile(r"(?<=[{;])(\s*)([^\s{};:=]+)(?= = )")
TOKEN = re.compile(r'[^\s(){}\[\],;]+')
LAMBDA = re.compile(r'λ ([^.]*)\.(?=\s|$)')
GROUP = re.compile(r'[({]\s*([^(){}:,]+?) : ')
LET = re.compile(r'\blet (\S+)')
ARROW = re.compile(r'(\S+) ←')
STRING = re.compile(r'"(?:[^"\\]|\\.)*"')


def code_of(line):
    """A line without its comment and without the texts in it."""
    line = STRING.sub('""', line)
    return '' if line.lstrip().startswith('--') else re.split(r'\s--\s', line)[0]


def trait_members(text):
    """What a text says of a concrete impl: the type, the trait and the member."""
    return [(re.split(r'[<:]', kind)[0], trait, member) for kind, trait, member in TRAIT_MEMBER.findall(text)]


def names_of(text):
    """The names of a text, each as its parts between points; a projection behind a bracket is none."""
    plain = FIELD_OF_RECORD.sub(r'\1', TRAIT_MEMBER.sub(' ', text))
    for token in TOKEN.findall(plain):
        parts = token.rstrip('.').split('.')
        if parts[0]:
            yield parts


def binders(text):
    """The names that a text binds: by λ, in brackets with a type, by `let` and by an arrow."""
    bound = set()
    for pattern in (LAMBDA, GROUP):
        for group in pattern.findall(text):
            bound.update(TOKEN.findall(group))
    return bound | set(LET.findall(text)) | set(ARROW.findall(text))


def pattern_names(left):
    """The names that the left side of a clause binds: those that aren't constructors."""
    return {parts[0] for parts in names_of(left) if len(parts) == 1 and not parts[0][0].isupper()}


def used(text, bound):
    """The names of a text that are bound neither in it nor outside."""
    own = bound | binders(text)
    return [parts for parts in names_of(text) if parts[0] not in own]
