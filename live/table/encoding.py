"""The text of a table: Unicode, or an older encoding of Windows or DOS. Those give one byte other letters in Western Europe, Central
Europe and Russia, so a table in them is taken for Windows' Western one only if its words look so, and don't all look like names in one
of DOS too; else its reader is asked. Pure.

A byte that is an `Ü` in DOS is an `š` in Windows, and an `ß` is an `á`. Where a byte is a letter in both, DOS_RULES says between which
letters names have the one of DOS, and seldom the one of Windows."""

from __future__ import annotations

import codecs
import enum
import re
from typing import Dict, List, Optional, Sequence

from live.run.refused import ARGUMENTS, REFUSED, Refused
from live.words.message import Message

ENCODING = "--encoding"  # the option
WESTERN = "cp1252"
UNDEFINED = "\ufffd"  # for a byte that an encoding gives nothing
READINGS = (  # what is typed, Python's name, where it is used
    ("windows-1252", WESTERN, Message("encoding.western_europe")),
    ("windows-1250", "cp1250", Message("encoding.central_europe")),
    ("windows-1251", "cp1251", Message("encoding.cyrillic")),
    ("cp437", "cp437", Message("encoding.dos")),
    ("cp850", "cp850", Message("encoding.dos_western_europe")),
    ("cp852", "cp852", Message("encoding.dos_central_europe")),
)
NOT_SURE = Message("encoding.not_sure")
MOST_SHOWN = 3  # names
LONGEST_NAME = 30  # characters of one
VOWELS = frozenset("aeiouy" + "áâäéíîóôöúüýë")  # accented ones that are the same in both of Europe's encodings
BESIDE_MARKS = frozenset("çðñþß")  # letters that stand beside accented vowels: Conceição, Þór, Großöhme
NO_LETTERS = "ªºµƒˆ"  # what Unicode takes for letters, and no name has
JOINS = "\xa0\xad´·°’‘–—"  # signs that stand between a name's letters: O’Neill
NOT_FIRST, NOT_LAST = "™µ", "‚„‰"  # signs that begin no word, and that end none
LETTERS_FIRST = "¡¦¨©«¬®¯±¶¸»"  # signs that are capitals in ISO-8859-2, ISO-8859-5 or Windows-1251: ©imek is Šimek
LETTERS_LAST = "±¶»"  # and small letters
LETTERS_OF_CAPITALS = "¦©¬®¯"  # and those with which a word of capitals ends: KOVÁ©
BEFORE_CYRILLIC = "°´·"  # signs that are capitals in ISO-8859-5
LETTERS_BESIDE = "¡¢£¤¥¦¨©«¬\xad®¯±µ¶¸»¿×÷"  # signs that are letters in Cyrillic encodings, where a letter beside one isn't plain
IN_QUOTES = re.compile(r"(?<![A-Za-z\xc0-\xff])(?:«([^«»]*)»|»([^«»]*)«)(?![A-Za-z\xc0-\xff])")
WITH_DIAERESIS = frozenset(("aïe", "gaïa", "haïk", "maïa", "maïeul", "taïeb", "zoïa"))  # as in France, but Naďa and Laďka
WORD = re.compile(r"[A-Za-z\x80-\xff]+")  # of bytes, read as Latin-1
DOS_PAGES = ("cp437", "cp850", "cp852")
DOS_WORD = re.compile(r"[A-Za-z0-9'\x80-\xff]+")  # of bytes, read as Latin-1
LAST_DOS_LETTER = "\u017f"  # of the letters that names in these encodings have; Greek ones are signs of mathematics there
NO_DOS_LETTERS = "ªºµıþŕĺĂÕ"  # and those that are none in names, or too rare
C, V = "[b-df-hj-np-tv-xzB-DF-HJ-NP-TV-XZ]", "[aeiouyáéíóúýöüäőűAEIOUY]"
PARTICLES = "af|av|da|das|de|del|den|der|di|do|dos|du|e|el|en|la|le|ten|ter|van|vom|von|y|zu|zum|zur"
SPACE_OF_WINDOWS = re.compile(rf"\xa0(?:{PARTICLES})(?![A-Za-z\x80-\xff])|(?<=[aeoAEO\xa0])\xa0")  # else it is an á of DOS
# Names of Windows that far more players have than what they would be in DOS: Gaßl, Koš and Saraš.
FREQUENT = frozenset(("gaál", "koç", "saraç"))
DOS_RULES: Dict[str, str] = {
    "ß": r"(?<=[aeiouyAEIOUY])ß(?=$|[aeiouAEIOU]|[lL]$|[bdfghklmpswBDFGHKLMPSW][a-zA-Z]|n[ei]|NE)",  # Weiß, Großmann, Meißner; but Suárez, Julián
    "õ": r"õ(?=es$)",  # Simões
    "ń": rf"(?<={V})ń(?=$|{C})",  # Kamiński; but Jäger
    "ň": rf"(?<={V})ň",  # Vaňek; but Bråten
    "š": rf"(?<={V})š(?=$|[^aouAOU])",  # Beneš, Vašek; but François
    "ţ": rf"(?<=[aeiounrl])ţ(?=$|{V})",  # Ionuţ; but Benoît
    "ý": r"(?<=[nk])ý(?=$)",  # Novotný; but Forlì
    "ř": rf"(?<={V})ř|ř(?={V})",  # Dvořák
    "ť": r"ť(?!u)",  # Baťa; but cœur
    "ľ": rf"(?<={V})ľ",  # Kráľ
    "ć": rf"(?<={V})ć",
    "æ": rf"(?<={C})æ(?={C})",  # Næss; but Sa‘id
    "à": rf"(?<={C})à(?=$)",
    "Ä": rf"(?<!{V})Ä(?={C}|[uU])",  # Ärmel, MÄRZ; but ŽIŽEK
    "Ő": rf"(?<={C})Ő(?={C})|^Ő(?=[rszRSZ])",  # Őri, SZŐKE; but Štefan
    "Æ": rf"^Æ(?={C}[a-z]{{2}})",  # Ægir; but ’t Hooft
    "À": rf"(?<={C})(?<!L)À|^À(?=[b-df-hj-np-tv-xz])", "Ě": rf"(?<={C})(?<!L)Ě",  # but GAL·LA
    "Â": rf"^Â(?={C})|(?<={C})Â",
    "Î": rf"^Î(?={C})|(?<={V})Î(?={C})",
    "È": rf"(?:^|(?<={C}))È(?={C})",  # Ève, LEFÈVRE
    "Ê": rf"(?<={C})Ê(?={C})",
    "Ë": r"(?<=[AEIO])Ë(?=L|$)",  # NOËL; but LEÓN
    "Ì": rf"(?<={C})Ì(?=$)",
    "Í": rf"(?<={C})Í(?=[AEO])",  # GARCÍA; but KÖNIG
    "Ï": r"(?<=[AEOU])Ï",  # LOÏC; but BJØRN
    "Ã": r"(?<=O)Ã(?=O$)|(?<=[BCDFGHJKMPQSTVXZ])Ã(?=[OE])",  # JOÃO, LEITÃO; but FRANÇOIS
    "Ð": rf"(?<={C})Ð",  # SIGURÐUR; but MUÑOZ
    "Đ": rf"(?<={C})Đ|^Đ(?={V})",  # SRĐAN, Đuro
    "Ď": rf"^Ď(?={V})",
    "Ň": rf"(?<={V})Ň",
    "Ţ": rf"Ţ(?={V})",
    "Ú": r"(?<=[A-Z])Ú|Ú(?=[A-Zjlr])",  # Úrsula; but école
    "Ů": rf"(?<={C})Ů",
    "Ř": rf"Ř(?={V})",
}  # fmt: skip


class Looks(enum.Enum):
    """What a word looks like whose letters depend on the encoding."""

    WESTERN = "western"
    OTHER = "other"
    EITHER = "either"


def text_of(content: bytes, encoding: str = "") -> str:
    """The text as spreadsheets save it: UTF-8 or UTF-16, with or without a byte order mark; else in this encoding; else in the
    Western form of Windows. Refused if no encoding is given and the text may be in another one."""
    found = unicode_text(content)
    if found is not None:
        return found
    if encoding:
        return _decoded(content, encoding)
    doubted = doubtful(content)
    if doubted:
        raise Refused(REFUSED, *question(doubted))
    return loose_text(content)


def loose_text(content: bytes) -> str:
    """The text in some way, for what is in ASCII."""
    found = unicode_text(content)
    return content.decode(WESTERN, "replace") if found is None else found


def unicode_text(content: bytes) -> Optional[str]:
    """The text, if it is Unicode."""
    if content[:2] in (b"\xff\xfe", b"\xfe\xff"):
        return content.decode("utf-16", "replace")
    if b"\0" in content[:2]:  # half of a UTF-16 letter
        return content.decode("utf-16-be" if content[:1] == b"\0" else "utf-16-le", "replace")
    try:
        return content.decode("utf-8-sig")
    except UnicodeDecodeError:
        return None


def known_encoding(name: str) -> str:
    """The name of an encoding, as it is kept. Refused if there is none of that name for text."""
    try:
        if b"a".decode(name) == "a":
            return codecs.lookup(name).name
    except (LookupError, UnicodeError, ValueError, AttributeError, TypeError):
        pass
    raise Refused(ARGUMENTS, Message("encoding.unknown", name=repr(name[:LONGEST_NAME]), example=READINGS[1][0]))


def encoding_in(words: Sequence[str]) -> str:
    """The encoding that words of a command line give last; empty if they give none."""
    given = ""
    for word, following in zip(words, [*words[1:], ""]):
        option, equals, value = word.partition("=")
        if option == ENCODING:
            given = value if equals else following
    return known_encoding(given) if given else ""


def _decoded(content: bytes, encoding: str) -> str:
    try:
        return content.decode(encoding)
    except UnicodeDecodeError as error:
        line = content.count(b"\n", 0, error.start) + 1
        raise Refused(REFUSED, Message("encoding.wrong_line", line=line, encoding=encoding)) from None


def is_question(lines: Sequence[str]) -> bool:
    """Whether this is said of a text that may be in more than one encoding."""
    return lines[0] == NOT_SURE


def question(doubted: Sequence[bytes]) -> List[str]:
    """What to ask: these names in each way."""
    names = [", ".join(name.decode(codec, "replace") for name in doubted) for _, codec, _ in READINGS]
    ways = [Message("encoding.way", encoding=typed, place=place, names=read) for (typed, _, place), read in zip(READINGS, names)]
    return [
        NOT_SURE,
        *ways,
        Message("encoding.say_which", example=READINGS[1][0]),
        Message("encoding.or_save"),
    ]


def doubtful(content: bytes) -> List[bytes]:
    """Some names of a text that isn't Unicode, if it may be in another encoding than the Western one."""
    names: List[bytes] = []
    of_dos: List[bytes] = []
    looks = set()
    for name in dict.fromkeys(part.strip() for part in re.split(rb'[,;\t"\r\n]+|  +', content)):
        unquoted = IN_QUOTES.sub(lambda quoted: f" {quoted[1] or quoted[2] or ''} ", name.decode("latin-1"))
        found = [look for word in WORD.findall(unquoted) for look in [look_of(word)] if look]
        looks.update(found)
        if found and found != [Looks.WESTERN]:
            names.append(name)
        if odd_words_of(name.decode("latin-1")):
            of_dos.append(name)
    is_western = Looks.OTHER not in looks and (Looks.WESTERN in looks or Looks.EITHER not in looks)
    if is_western:
        words = odd_words_of(content.decode("latin-1"))
        names = of_dos if dos_page_of(words) and not are_frequent(words) else []
    return [name[:LONGEST_NAME] for name in names[:MOST_SHOWN]]


def told_of_reading(content: bytes, encoding: str) -> str:
    """What to say of a text that is read as Western, though its few names could be of DOS too; empty if they couldn't."""
    if encoding or unicode_text(content) is not None or doubtful(content):
        return ""
    words = odd_words_of(content.decode("latin-1"))
    page = dos_page_of(words)
    if not page:
        return ""
    western, of_dos = (", ".join(word.encode("latin-1").decode(codec) for word in words[:MOST_SHOWN]) for codec in (WESTERN, page))
    how = Message("encoding.option_of", option=ENCODING, page=page)
    return Message("encoding.read_as", western=western, encoding=READINGS[0][0], of_dos=of_dos, how=how)


def look_of(word: str) -> Optional[Looks]:
    """What a word of bytes, read as Latin-1, looks like; None if all its letters are the same in Western and Central Europe."""
    if _has_no_plain_letter(word.encode("latin-1").decode(WESTERN, "replace")):
        return Looks.OTHER
    looks = {look for place in range(len(word)) for look in [_look_at(word, place)] if look}
    for look in (Looks.OTHER, Looks.WESTERN, Looks.EITHER):
        if look in looks:
            return look
    return None


def _look_at(word: str, place: int) -> Optional[Looks]:
    byte = word[place].encode("latin-1")
    if byte < b"\x80":
        return None
    western, central = byte.decode(WESTERN, "replace"), byte.decode("cp1250", "replace")
    before, after = (part.encode("latin-1").decode(WESTERN, "replace").lower() for part in (word[:place][-1:], word[place + 1 :][:1]))
    if _is_letter_elsewhere(western, before, after, word):
        return Looks.OTHER
    if not western.isalpha() or western in NO_LETTERS:
        within = (before.isalpha() or western in NOT_FIRST) and (after.isalpha() or western in NOT_LAST)
        return _look_of_sign(western, word, place) if within or western != central or western == UNDEFINED else None
    if western == central:
        return None
    if _beside_another(western.lower(), before) or _beside_another(western.lower(), after):
        return Looks.OTHER
    return _look_of_letter(western.lower(), before, after, word, place)


def _has_no_plain_letter(word: str) -> bool:
    """Whether a word has two letters or more, and none of A to Z: Юн and Ро in Cyrillic. Where a sign may be a letter elsewhere, anything
    beside it will do. An initial may be alone."""
    letters = [letter for letter in word if letter.isalpha() and letter not in NO_LETTERS]
    is_odd = len(letters) > 1 or (len(word) > 1 and any(sign in LETTERS_BESIDE for sign in word))
    return is_odd and not any(letter.isascii() for letter in letters)


def _is_letter_elsewhere(letter: str, before: str, after: str, word: str) -> bool:
    """Whether no Western word has this letter or sign first or last, and words in another encoding have: ©imek, ¨æ, ßí."""
    if (not before or before in LETTERS_FIRST) and after.isalpha():
        return letter in LETTERS_FIRST + "ß" or (letter in BEFORE_CYRILLIC and after > "\x7f")
    return not after and before.isalpha() and (letter in LETTERS_LAST or (letter in LETTERS_OF_CAPITALS and word.isupper()))


def _look_of_sign(sign: str, word: str, place: int) -> Optional[Looks]:
    """A sign within a word is a letter of another encoding: £ukasz, Wa³êsa, J”rg. Not so Mª and Nº, and signs that stand alone."""
    if sign == UNDEFINED:
        return Looks.OTHER
    letters = re.findall(r"[A-Za-z\xc0-\xff]", word)
    if not letters or (sign in "ªº" and place == len(word) - 1 and len(word) < 4) or sign in JOINS:
        return None
    return Looks.OTHER


def _beside_another(letter: str, other: str) -> bool:
    """Whether two marked letters are side by side that no Western language has so: Dvoøák, Ïåòðîâ."""
    return bool(other) and other > "\x7f" and other.isalpha() and other != letter and not {letter, other} & BESIDE_MARKS


def _look_of_letter(letter: str, before: str, after: str, word: str, place: int) -> Looks:
    """By the letters beside it. What is a vowel in the West is often a consonant in Central Europe: è and č, ø and ř, æ and ć."""
    rest = word[place + 1 :].lower()
    if letter == "à":  # Àlex, Joàn and Carlà; Vŕba and Sànchez could be either
        return Looks.EITHER if before and after and not {before, after} & VOWELS else Looks.WESTERN
    if letter == "å":  # ĺ is rare
        return Looks.WESTERN
    if letter == "ÿ" or (letter == "œ" and after != "u"):  # ź and ś; but cœur
        return Looks.OTHER
    if letter == "ê" and (after == "q" or (before == "n" and rest == "s")):  # Lévêque, Inês
        return Looks.WESTERN
    if letter == "è" and before == "i" and re.fullmatch("(?:[cgmntv]|gn|v?r)e", rest):  # Geneviève, Rivière
        return Looks.WESTERN
    if letter == "ñ":  # Muñoz, but Kamiński
        return Looks.WESTERN if after in VOWELS and after else Looks.OTHER
    if letter in "ìù":  # Forlì, but Němec and Růžička
        return Looks.OTHER if after else Looks.WESTERN
    if letter == "ï":
        return _look_of_diaeresis(before, after, word.lower())
    if letter in "ãõ" and after and after in "oe":  # João, Magalhães, Simões
        return Looks.WESTERN
    if letter == "ð" and not before:  # Đorđe; ð begins no word
        return Looks.OTHER
    if letter == "ð" and (rest in ("ur", "inn") or (before in VOWELS | {"r"} and after not in VOWELS)):  # Sigurður, Guðmundur; but Srđan
        return Looks.WESTERN
    if letter == "þ" and re.match("(?:[áéíóúýæö]|or)[a-z]|[rj][a-záéíóúýæö]", rest):  # Þórhallur, Þráinn; but Ţurcanu
        return Looks.WESTERN
    if letter == "ø" and after == "y":  # Øystein
        return Looks.WESTERN
    if letter == "æ" and (before in VOWELS or (not before and after and after in "chkmwz")):  # Maćkowiak, Ćwik and Ćmiel, but Ægir
        return Looks.OTHER
    if letter in "øæò" or (letter == "è" and after):  # Lefèvre, but Kučera; Krč could be either
        vowels = sum(beside in VOWELS for beside in (before, after) if beside)
        consonants = sum(beside not in VOWELS for beside in (before, after) if beside)
        if vowels != consonants:
            return Looks.OTHER if vowels > consonants else Looks.WESTERN
    return Looks.WESTERN if letter == "œ" else Looks.EITHER


def _look_of_diaeresis(before: str, after: str, word: str) -> Looks:
    """Of an ï: Loïc, Anaïs and Tolstoï, but Ďurica, Maďar and Laďka."""
    if before not in VOWELS:
        return Looks.OTHER
    if word in WITH_DIAERESIS or (not after and before != "o"):
        return Looks.EITHER
    return Looks.OTHER if after and (after in VOWELS or after in "hk") else Looks.WESTERN


def dos_page_of(words: Sequence[str]) -> str:
    """The encoding of DOS in which all these words of bytes may be; empty if there is none. All look like names there, or all can be words
    there, and one that looks like a name there is none of Windows."""
    for page in DOS_PAGES:
        if not all(_is_possible(word, page) for word in words):
            continue
        names = [word for word in words if _looks_like_a_name(word, page)]
        if names and (len(names) == len(words) or any(map(_is_odd, names))):
            return page
    return ""


def are_frequent(words: Sequence[str]) -> bool:
    """Whether these words of bytes are much more likely names of Windows than of DOS."""
    return all(word.encode("latin-1").decode("cp1252", "replace").lower() in FREQUENT for word in words)


def odd_words_of(text: str) -> Sequence[str]:
    """The words of bytes that have letters, and others beside those of ASCII."""
    return [word for word in dict.fromkeys(DOS_WORD.findall(text)) if not word.isascii() and re.search("[A-Za-z]", word)]


def _is_possible(word: str, page: str) -> bool:
    """Whether all bytes of a word are letters there, capital and small ones where a word has them."""
    if SPACE_OF_WINDOWS.search(word) or re.search("[0-9]", word):
        return False
    read = word.encode("latin-1").decode(page)
    return all(letter.isascii() or (_is_dos_letter(letter) and _is_in_case(read, place)) for place, letter in enumerate(read))


def _looks_like_a_name(word: str, page: str) -> bool:
    """Whether each letter of a possible word stands where names have it."""
    read = word.encode("latin-1").decode(page)
    rules = [(letter, DOS_RULES[letter]) for letter in read if letter in DOS_RULES]
    return all(len(re.findall(rule, read)) == read.count(letter) for letter, rule in rules)


def _is_odd(word: str) -> bool:
    """Whether Windows' encoding has a capital or a small letter where no word has it, or a space or a sign within small letters."""
    if re.search("[A-Za-z\xc0-\xff][\xa0\xad\x91\x96\x97][a-z]", word):
        return True
    read = word.encode("latin-1").decode("cp1252", "replace")
    return any(not letter.isascii() and letter.isalpha() and not _is_in_case(read, place) for place, letter in enumerate(read))


def _is_dos_letter(letter: str) -> bool:
    return letter.isalpha() and letter <= LAST_DOS_LETTER and letter not in NO_DOS_LETTERS


def _is_in_case(word: str, place: int) -> bool:
    """Whether a capital begins a word or is in one of capitals, and a small letter is among small ones."""
    letter, after = word[place], word[place + 1 : place + 2]
    if letter.isupper():
        return (place == 0 and after.islower()) or (len(word) > 1 and not re.search("[a-zà-ÿ]", word))
    if letter == "ß":
        return place > 0
    return place > 0 and not after.isupper() and (place == 1 or word[place - 1].islower())
