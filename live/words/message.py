"""What people read: a message is a key of a catalogue, and what goes into the places of its sentence.

A catalogue has the sentences of one language, by key, in a file that `live/` and `web/` both read. A place is a name in braces:
`{word} is no legal move`. What comes into `{Word}` begins with a capital. Another language is another file with the same keys, and with
the same places in each sentence."""

from __future__ import annotations

import functools
import json
import os
import re
from typing import Callable, Dict, FrozenSet, Iterable, List, Mapping

PLACE = re.compile(r"\{([A-Za-z_]+)\}")
FOLDER = os.path.join(os.path.dirname(os.path.dirname(os.path.dirname(os.path.realpath(__file__)))), "shared")
KEY = re.compile(r"'([a-z_]+\.[a-z_]+)'")  # as it stands in JavaScript, without the end for one or several
ONE, MANY = ".one", ".many"  # the ends of two keys: one sentence for one thing, another for several
LINKS = "join."  # how the keys of sentences that link texts begin


class NoCatalogue(ImportError):
    """A catalogue can't be used. The text says why."""


def path_of(language: str) -> str:
    """The file of a language, as `en`."""
    return os.path.join(FOLDER, f"words.{language}.json")


def read(path: str) -> Dict[str, str]:
    """The sentences of a file, by key."""
    try:
        with open(path, encoding="utf-8") as file:
            sentences = json.load(file)
    except OSError as error:
        raise NoCatalogue(f"{path} can't be read ({error.strerror}): install all of dgt_replay anew") from error
    except ValueError as error:
        raise NoCatalogue(f"{path} is no JSON ({error})") from error
    if not isinstance(sentences, dict) or not all(isinstance(text, str) for text in sentences.values()):
        raise NoCatalogue(f"{path} is no object of keys and sentences")
    return sentences


ENGLISH: Mapping[str, str] = read(path_of("en"))


def places_of(sentence: str) -> FrozenSet[str]:
    """The names of its places."""
    return frozenset(name[:1].lower() + name[1:] for name in PLACE.findall(sentence))


def used_in(code: str, sentences: Mapping[str, str]) -> Dict[str, str]:
    """Those of the sentences whose keys stand in a page's scripts, and those that link texts."""
    keys = set(KEY.findall(code))
    return {key: text for key, text in sentences.items() if key in keys or key.rpartition(".")[0] in keys or key.startswith(LINKS)}


def faults(sentences: Mapping[str, str], english: Mapping[str, str]) -> List[str]:
    """What keeps a catalogue from taking the place of the English one. The sentence for one thing may leave its number out."""
    told = [f"{key} is missing" for key in english if key not in sentences]
    for key, sentence in sentences.items():
        if key not in english:
            told.append(f"{key} is no key of the English catalogue")
            continue
        has, wants = places_of(sentence), places_of(english[key])
        if key.endswith(ONE):
            has, wants = has - {"count"}, wants - {"count"}
        if has != wants:
            told.append(f"{key} has {listed(has)}, and is to have {listed(wants)}")
    return told


def listed(places: FrozenSet[str]) -> str:
    """Places in words."""
    return ", ".join(f"{{{name}}}" for name in sorted(places)) or "no place"


def read_like(path: str, english: Mapping[str, str]) -> Dict[str, str]:
    """The sentences of another language. Refused if a key or a place isn't as in the English catalogue."""
    sentences = read(path)
    told = faults(sentences, english)
    if told:
        raise NoCatalogue(f"{path}: {'; '.join(told)}")
    return sentences


class Message(str):
    """A sentence. As a string it is the English text, which logs keep. Its key and its places make the text in another language."""

    __slots__ = ("key", "places")
    key: str
    places: Dict[str, object]

    def __new__(cls, key: str, /, **places: object) -> Message:
        self = super().__new__(cls, written(ENGLISH, key, places))
        self.key, self.places = key, places
        return self

    def with_places(self, change: Callable[[object], object]) -> Message:
        """The same sentence with other things in its places."""
        return Message(self.key, **{name: change(place) for name, place in self.places.items()})


class Complaint(Exception):
    """An error that says in a message what is wrong."""

    def __init__(self, message: str) -> None:
        super().__init__(message)
        self.message = message


def plural(key: str, count: int, /, **places: object) -> Message:
    """The sentence for one thing or for several; `{count}` is how many there are."""
    return Message(key + (ONE if count == 1 else MANY), count=count, **places)


def linked(how: str, parts: Iterable[str]) -> str:
    """Texts one after the other, linked by the sentence `join.HOW`; empty if there are none."""
    return functools.reduce(lambda front, last: Message(f"join.{how}", front=front, last=last), list(parts) or [""])


def is_of(text: str, key: str) -> bool:
    """Whether a text is the sentence of this key, also if it was kept in a file and read again."""
    if isinstance(text, Message):
        return text.key == key
    return re.fullmatch("".join(".+" if at % 2 else re.escape(part) for at, part in enumerate(PLACE.split(ENGLISH[key]))), text) is not None


def has(text: object, key: str) -> bool:
    """Whether a text is the sentence of this key, or has it in one of its places."""
    return isinstance(text, Message) and (text.key == key or any(has(place, key) for place in text.places.values()))


def written(catalogue: Mapping[str, str], key: str, places: Mapping[str, object]) -> str:
    """The sentence of a key in the language of this catalogue. Messages in its places are in that language too."""
    if key not in catalogue:
        raise LookupError(f"the catalogue has no {key}")
    return catalogue[key].format_map(Filled({name: text_of(place, catalogue) for name, place in places.items()}))


class Filled(Dict[str, str]):
    """What comes into places. One whose name begins with a capital in the sentence begins with a capital itself."""

    def __missing__(self, name: str) -> str:
        if not name[:1].isupper():
            raise KeyError(name)
        text = self[name[:1].lower() + name[1:]]
        return text[:1].upper() + text[1:]


def text_of(said: object, catalogue: Mapping[str, str]) -> str:
    """A message in the language of this catalogue; anything else as it is."""
    if isinstance(said, Message) and catalogue is not ENGLISH:
        return written(catalogue, said.key, said.places)
    return str(said)
