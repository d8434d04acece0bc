"""Chaldoref: a verified reader of QuickTime movie tables, over the shared library libchaldoref.so.1.

    >>> from chaldoref import Movie, read_slip
    >>> movie = Movie(open("films/two-hoses.mov", "rb").read())
    >>> movie.sample_bytes(2, movie.sample_at(2, 24).sample)
    b'hose 2 picture 2'
    >>> read_slip(movie.write_slip(2, 24, 96)).film_time
    72

Each question is put to the library, whose functions are proved to meet their contracts. This module is not proved: it
lends the library its bytes and rooms, and names the numbers that come back. What the library refuses is raised as
Refused, with the refusal's number and words. The numbers asked are whole numbers of 32 bits without a sign; any other
is a ValueError, since the library cannot be asked it.

The library is the one beside this file, where `pip install ./host/python` puts it; else the loader finds it, where the
Debian package puts it or in a folder of LD_LIBRARY_PATH. Any number of threads may ask the same Movie at once.
"""
from __future__ import annotations

import ctypes
import enum
import functools
import io
import itertools
import mmap
import operator
import os
import struct
from dataclasses import dataclass
from typing import Any, BinaryIO, Dict, Iterable, Iterator, NamedTuple, Optional, Tuple, Union

#: The version of this module and of the library that it is made for.
__version__ = "0.7.0"

__all__ = [
    "FEATURES", "QUAY_RULES", "UNIVERSAL_PART", "ByteRange", "Columns", "Edit", "FilmReturn", "Fragments", "Header", "Indexed", "MalformedSlip",
    "Moov", "Movie", "Opened", "Peak", "ProfileRecord", "QuayFault", "Refusal", "Refused", "Sample", "SampleAt", "Slip", "Stretch",
    "Track", "library_version", "read_any_slip", "read_slip",
]

#: What the library and this module take as bytes. All but bytes are copied, since nothing may write to them in a call.
Bytes = Union[bytes, bytearray, memoryview]

#: The name of a file.
Name = Union[str, "os.PathLike[str]"]

#: The features that can be computed, by their codes, and the name of each.
FEATURES = {
    "avvb": "average video bit rate",
    "avab": "average audio bit rate",
    "tvsz": "greatest picture",
    "vfps": "highest frame rate",
    "mvbr": "highest video bit rate over one second",
    "mabr": "highest audio bit rate over one second",
}

#: The part-ID of the records that Movie.check_profile judges.
UNIVERSAL_PART = 0x20202020

#: The rules of the quay film profile, by their numbers.
QUAY_RULES = {
    1: "one or two vide tracks and no others",
    2: "at most one edit entry a track",
    3: "one description a track",
    4: "no ctts",
    5: "sample 1 sync, and a sync sample and those after it before the next sync one, or to the end, at most 250 samples",
    6: "no zero sizes",
    7: "no zero durations",
    8: "chunks in rising order of offset with none overlapping the one before",
    9: "vfps at most 30.0",
}

# As include/chaldoref.h has them.
_TRACK_NUMBERS, _PAIR_NUMBERS, _RECORD_NUMBERS, _EDIT_NUMBERS = 8, 2, 3, 3
_MAX_TRACKS, _MAX_PAIRS, _MAX_RECORDS, _MAX_EDITS = 16, 1_048_576, 64, 256
_SLIP_HEAD_BYTES, _SLIP_PAIR_BYTES, _SLIP_WIDE_PAIR_BYTES = 24, 10, 18
_HEADER_BYTES, _TOP_LEVEL_PLACES = 16, 6
_STEPPER_NUMBERS, _SAMPLE_NUMBERS, _OPENED_NUMBERS = 29, 8, 19
_CHECKPOINT_SAMPLES, _CHECKPOINT_NUMBERS = 64, 6
_FILM_RETURN_NUMBERS, _MAX_SCALES = 83, 32

#: As many samples are had from the library at once.
_FETCHED = 1024

#: The eight numbers of a sample, as the library fills them in: all of 64 bits, of which the fourth is 0 or 1.
_SAMPLE = struct.Struct("<3q?7x4q")

#: The size of a large page of memory.
_LARGE_PAGE = 2**21

#: The most bytes that are lent of a film.
_MAX_LENT = 2_147_483_647


class Refusal(enum.IntEnum):
    """The refusals, by their numbers in documents 01 and 02."""

    FILE_TOO_LONG = 1
    ATOM_SIZE = 2
    ATOM_COUNT = 3
    LEAF_VERSION = 4
    LEAF_SIZE = 5
    OVER_LIMIT = 6
    TRACK_IDS = 7
    TIME_SCALE = 8
    TABLES = 9
    TOTAL_DURATION = 10
    STORED_DURATION = 11
    PAST_END = 12
    EDIT_LIST = 13
    NO_TRACK = 14
    OUTSIDE = 15
    NO_ROOM = 16
    MALFORMED_SLIP = 17
    NOT_COMPUTED = 18
    DATA_ELSEWHERE = 19
    TOO_MANY_SCALES = 20
    TOTAL_TOO_GREAT = 21

    @property
    def words(self) -> str:
        """When the documents give this refusal, in their words."""
        return _WORDS[self]


_WORDS = {
    Refusal.FILE_TOO_LONG: "the file is longer than 2,147,483,647 bytes",
    Refusal.ATOM_SIZE:
        "an atom's size is wrong, passes its parent's end, or 1 to 7 bytes (under 16 for a 64-bit size) remain",
    Refusal.ATOM_COUNT: "an atom is absent or occurs too often",
    Refusal.LEAF_VERSION: "a read leaf has a body whose first byte is not 0",
    Refusal.LEAF_SIZE: "a read leaf or profile hasn't its size",
    Refusal.OVER_LIMIT:
        "over 16 tracks, or in one track over 1,048,576 samples or chunks, 256 edits, 64 descriptions or "
        "64 references; in one profile over 64 records",
    Refusal.TRACK_IDS: "a track ID is 0 or occurs twice",
    Refusal.TIME_SCALE: "a movie or media time scale is 0",
    Refusal.TABLES: "sample tables contradict each other",
    Refusal.TOTAL_DURATION: "the sample durations, or a track's edit durations, total over 4,294,967,295",
    Refusal.STORED_DURATION: "the mdhd duration is not the total of the sample durations",
    Refusal.PAST_END: "a chunk's offset plus the sizes of its samples passes the file's end",
    Refusal.EDIT_LIST: "an edit list is wrong",
    Refusal.NO_TRACK: "no track has that ID",
    Refusal.OUTSIDE: "the sample number is not in 1 to N, or the time or stretch lies outside",
    Refusal.NO_ROOM: "the lent room is shorter than the answer",
    Refusal.MALFORMED_SLIP: "a slip is malformed",
    Refusal.NOT_COMPUTED: "the feature cannot be computed",
    Refusal.DATA_ELSEWHERE: "a description names data elsewhere, or no such data reference",
    Refusal.TOO_MANY_SCALES: "a thirty-third time scale would be met",
    Refusal.TOTAL_TOO_GREAT: "a total would reach 2^64",
}


class Refused(Exception):
    """A question that the library refuses, or a file."""

    #: The refusal's number in documents 01 and 02, 1 to 21.
    number: Refusal

    def __init__(self, number: int) -> None:
        super().__init__(number)
        self.number = Refusal(number)

    @property
    def words(self) -> str:
        """When the documents give this refusal, in their words."""
        return self.number.words

    def __str__(self) -> str:
        return f"refused {int(self.number)}: {self.words}"


class MalformedSlip(Refused):
    """Refusal 17 of bytes that are no slip, and where they go wrong."""

    #: The first fault, counted in bytes from 0: the first byte of the first number that breaks a rule, the slip's
    #: length if it ends early, or the first surplus byte.
    place: int

    def __init__(self, place: int) -> None:
        super().__init__(Refusal.MALFORMED_SLIP)
        self.args = (place,)
        self.place = place

    def __str__(self) -> str:
        return f"{super().__str__()}, at place {self.place}"


@dataclass(frozen=True)
class Track:
    """A track of the track list."""

    #: Its ID, which no other track of the movie has.
    id: int
    #: What its handler says it is, such as "vide" or "soun": four characters, one for each byte (Latin-1).
    subtype: str
    #: The time scale of its media: units a second.
    scale: int
    #: The total of its samples' durations, which is where its media ends.
    total: int
    #: The number of its samples.
    samples: int
    #: The number of its chunks.
    chunks: int
    #: The number of its edits; 0 without an edit list.
    edits: int
    #: The duration that the file stores for its media. Where it is not the total, no slip is written of the film.
    stored: int


class Sample(NamedTuple):
    """A sample of a track."""

    #: Where it starts: the total of the durations before it.
    decode: int
    #: How long it lasts; it may be 0.
    duration: int
    #: When it is shown: the decode time plus the sample's offset, which may be negative.
    composition: int
    #: Whether it is a sync sample.
    sync: bool
    #: The ID of its sample description, from 1.
    description: int
    #: The number of its chunk, from 1.
    chunk: int
    #: The place of its first byte in the file.
    offset: int
    #: The number of its bytes; it may be 0.
    size: int


class Columns(NamedTuple):
    """The samples of a track as columns: views of one table of 64-bit numbers, an entry for each sample. A view has the
    buffer protocol, so that numpy.asarray(columns.size) copies nothing; sum, list and indexes work on it too."""

    decode: memoryview
    duration: memoryview
    composition: memoryview
    #: 1 for a sync sample, else 0.
    sync: memoryview
    description: memoryview
    chunk: memoryview
    offset: memoryview
    size: memoryview


class SampleAt(NamedTuple):
    """The sample at a media time."""

    #: Its number, from 1.
    sample: int
    #: How many entries of the track's stts were looked at: the position, from 1, of the entry that holds the sample.
    entry: int


class ByteRange(NamedTuple):
    """Some bytes of a film: as many as length from offset on, counted from the file's first byte."""

    #: The first byte's place in the file.
    offset: int
    #: The number of bytes; it may be 0.
    length: int


@dataclass(frozen=True)
class Header:
    """The movie's own time."""

    #: The movie's time scale: units of movie time a second. It is not 0.
    scale: int
    #: The duration that the file stores for the movie. Nothing ties it to the tracks.
    stored: int


@dataclass(frozen=True)
class Edit:
    """An entry of a track's edit list."""

    #: How long it lasts, in movie time.
    duration: int
    #: The media time at which it begins; None where it shows nothing.
    media: Optional[int]
    #: The rate, times 65,536.
    rate: int


@dataclass(frozen=True)
class Stretch:
    """The bytes of a stretch of a track."""

    #: One range for each chunk touched, in chunk order.
    pairs: Tuple[ByteRange, ...]
    #: The total of their lengths.
    bytes: int


@dataclass(frozen=True)
class ProfileRecord:
    """A record of a stored profile."""

    #: The part-ID.
    part: int
    #: The feature's code: four characters, one for each byte (Latin-1).
    code: str
    #: The feature's value as the file has it; Movie.check_profile judges it.
    value: int


@dataclass(frozen=True)
class QuayFault:
    """What keeps a movie from the quay film profile."""

    #: The lowest rule that any track breaks, from 1; its words are in QUAY_RULES.
    rule: int
    #: The ID of the first track in file order that breaks it; None for the first rule, which is the movie's.
    track: Optional[int]


@dataclass(frozen=True)
class Peak:
    """Where a track has its highest bit rate over one second: a run of samples."""

    #: The number of its first sample, from 1.
    first: int
    #: The number of its samples.
    samples: int


@dataclass(frozen=True)
class Slip:
    """A slip: the receipt that files which bytes of film belong to a stretch of a track."""

    #: The ID of the track that is filed. It is not 0.
    track: int
    #: The time scale of a and b: units a second. It is not 0.
    scale: int
    #: Where the stretch starts.
    a: int
    #: Where it ends: the first time after it. It is above a.
    b: int
    #: The bytes, at least one range. Nothing ties them to a film or to each other.
    pairs: Tuple[ByteRange, ...]
    #: The form that it is written in, 1 or 2.
    form: int = 1

    @property
    def film_time(self) -> int:
        """The film time that is filed, from a to b, in units of the slip's time scale."""
        return self.b - self.a

    @property
    def bytes(self) -> int:
        """The total of the pairs' lengths."""
        return sum(pair.length for pair in self.pairs)


class Fragments(NamedTuple):
    """Whether a film has fragments. Samples in fragments are not read, so that a film that has them is read in part."""

    #: The moov has an mvex: the film may have fragments, in this file or in others.
    announced: bool
    #: The file has a moof at top level. It is not known of a movie that is made by of_moov.
    present: bool


@dataclass(frozen=True)
class Moov:
    """The moov atom of a film, with its header and nothing else: what Movie.of_moov takes."""

    #: The whole atom.
    bytes: bytes
    #: The length of the file that it is of.
    length: int
    #: How many fragments the file has at top level. Their samples are not read.
    fragments: int = 0

    @classmethod
    def read(cls, film: Union[str, "os.PathLike[str]", BinaryIO]) -> "Moov":
        """Reads the moov of a film, by the name of its file or from a binary file that can be read and sought. Refusals 1,
        2, 3, where the film's top level is refused."""
        if not hasattr(film, "read"):
            with open(film, "rb") as file:
                return cls.read(file)
        length = film.seek(0, os.SEEK_END)
        place, size, fragments = _moov_in(film, length)
        if size > _MAX_LENT:
            raise Refused(Refusal.FILE_TOO_LONG)
        return cls(_read_at(film, place, size), length, fragments)

    def leaving_out(self, *, edits: bool = False, tracks: Iterable[int] = ()) -> "Moov":
        """A copy in which the edit lists of all tracks, or the tracks with those IDs, are named free, so that every reader
        skips them. No byte moves and no table changes: every other answer is the film's own. Refusal 14 where no track has
        such an ID."""
        copy = bytearray(self.bytes)
        places = [place for trak in self._tracks() for place, _, kind in _children(self.bytes, *trak) if kind == b"edts"]
        found = places if edits else []
        for track in tracks:
            own = [begin for begin, end in self._tracks() if self._id_in(begin, end) == track]
            if not own:
                raise Refused(Refusal.NO_TRACK)
            found = found + own
        for place in found:
            copy[place + 4:place + 8] = b"free"
        return Moov(bytes(copy), self.length, self.fragments)

    def _tracks(self) -> Iterator[Tuple[int, int]]:
        """Where the traks begin and end."""
        return ((begin, end) for begin, end, kind in _children(self.bytes, 0, len(self.bytes)) if kind == b"trak")

    def _id_in(self, begin: int, end: int) -> Optional[int]:
        """The ID that the header of a track has, of version 1 too."""
        for place, _, kind in _children(self.bytes, begin, end):
            if kind == b"tkhd":
                at = place + (28 if self.bytes[place + 8:place + 9] == b"\x01" else 20)
                return int.from_bytes(self.bytes[at:at + 4], "big")
        return None


class Movie:
    """A movie that the library has accepted. Times and totals of a track are in its own time scale.

    A movie is made of a whole file's bytes, or, by read, of its moov alone, whatever the file's length. The first
    question about the samples, times or stretches of a track judges the tables, in time that grows with them, and those
    after it do not; samples goes through a track in one judging. The other questions judge them each time.
    """

    def __init__(self, file: Bytes) -> None:
        """Judges a whole movie file, given as its bytes, and reads its track list. Refusals 1 to 13 but 11, and 19."""
        if isinstance(file, (str, os.PathLike)):
            raise TypeError(f"Movie takes the bytes of a film; Movie.read({os.fspath(file)!r}) takes the name of its file")
        self._open(_lent(file), None)

    @classmethod
    def of_moov(cls, moov: Bytes, length: int) -> "Movie":
        """Judges a moov atom, with its header and nothing else, of a file of that length. Refusals 1 to 13 but 11, and
        19."""
        movie = cls.__new__(cls)
        movie._open(_lent(moov), _number(length, 64))
        return movie

    @classmethod
    def read(cls, film: Union[Name, BinaryIO]) -> "Movie":
        """Reads the moov of a film, by the name of its file or from a binary file that can be read and sought, and no
        other byte but the headers of the atoms at top level. Refusals 1 to 13 but 11, and 19."""
        moov = Moov.read(film)
        movie = cls.of_moov(moov.bytes, moov.length)
        movie._film, movie._moofs = film, moov.fragments
        return movie

    def _open(self, lent: bytes, length: Optional[int]) -> None:
        self._lent, self._length = lent, length
        # How many fragments stood at top level, where the film was read by its headers.
        self._moofs = 0
        # Where the samples' bytes are read, if the movie was made by read.
        self._film: Union[Name, BinaryIO, None] = None
        room = _room(ctypes.c_uint32, _TRACK_NUMBERS * _MAX_TRACKS)
        count, = self._ask("track_list", 1, room=room)
        rows = _rows(room, count, _TRACK_NUMBERS)
        self._tracks = tuple(Track(row[0], _characters(row[1]), *row[2:]) for row in rows)
        # The tracks that were opened, by their IDs.
        self._opened: Dict[int, Opened] = {}

    @property
    def file(self) -> Optional[bytes]:
        """The file's bytes; None where the movie was made of its moov alone."""
        return self._lent if self._length is None else None

    @property
    def length(self) -> int:
        """The length of the movie's file."""
        return len(self._lent) if self._length is None else self._length

    def header(self) -> Header:
        """The movie's time scale and the duration that it stores."""
        return Header(*self._ask("movie", 2))

    def edits(self, track: int) -> Tuple[Edit, ...]:
        """The edit list of a track; none where it has no list. Refusal 14."""
        room = _room(ctypes.c_int64, _EDIT_NUMBERS * _MAX_EDITS)
        count, = self._ask("edits", 1, track, room=room)
        rows = _rows(room, count, _EDIT_NUMBERS)
        return tuple(Edit(duration, None if media == -1 else media, rate) for duration, media, rate in rows)

    def tracks(self) -> Tuple[Track, ...]:
        """The tracks, in file order. There may be none, and there are 16 at most."""
        return self._tracks

    def sample(self, track: int, n: int) -> Sample:
        """Sample n of a track, numbered from 1. Refusals 14, 15."""
        return self.opened(track).sample(n)

    def samples(self, track: int, start: Optional[int] = None) -> Iterator[Sample]:
        """The samples of a track, in order, from sample start on, numbered from 1: what sample answers of each, where no
        table is begun again. Without a start all of them, which are none where the track has none. Refusals 14, and 15
        where the track has no sample start; they are raised by this call and not by the first next."""
        return self.opened(track).samples(start)

    def opened(self, track: int) -> "Opened":
        """A track, opened once for many questions about its samples, times and stretches: the film is judged here, the
        first time that the track is opened or asked such a question, and not again by them. Refusal 14."""
        track = _number(track)
        if track not in self._opened:
            handle = self._ask("open", _OPENED_NUMBERS, track)
            self._opened[track] = Opened(self._lent, next(known for known in self._tracks if known.id == track), handle)
        return self._opened[track]

    def columns(self, track: int, start: Optional[int] = None) -> "Columns":
        """The same as samples, as columns: for programs that look at all samples of a long track. Refusals 14, 15."""
        return self.opened(track).columns(start)

    def sample_bytes(self, track: int, n: int) -> bytes:
        """The bytes of sample n of a track, numbered from 1. Refusals 14, 15. A movie that read has made reads them from its
        file, which must not have changed: an OSError where its length has. A ValueError where the movie was made of_moov:
        offset and size of the sample then tell where in the file they are."""
        sample = self.sample(track, n)
        if self._length is None:
            return self._lent[sample.offset:sample.offset + sample.size]
        if self._film is None:
            raise ValueError("the movie was made of its moov alone, which has no sample's bytes; Movie.read knows the file")
        if hasattr(self._film, "read"):
            return self._bytes_in(self._film, sample)
        with open(self._film, "rb") as file:
            return self._bytes_in(file, sample)

    def _bytes_in(self, film: BinaryIO, sample: Sample) -> bytes:
        if film.seek(0, os.SEEK_END) != self._length:
            raise OSError("the film has changed since its moov was read")
        return _read_at(film, sample.offset, sample.size)

    def sample_at(self, track: int, t: int) -> SampleAt:
        """The sample at media time t: decode time <= t < decode time + duration. Refusals 14, 15."""
        return self.opened(track).sample_at(t)

    def media_time(self, track: int, t: int) -> Optional[int]:
        """The media time that a track shows at movie time t, in the movie's time scale; None where nothing is shown.
        Refusals 14, 15."""
        return self.opened(track).media_time(t)

    def stretch(self, track: int, a: int, b: int) -> Stretch:
        """The bytes of a track from media time a to b (a < b <= total): all samples from the one at a to the one at
        b - 1. Refusals 14, 15."""
        return self.opened(track).stretch(a, b)

    def write_slip(self, track: int, a: int, b: int) -> bytes:
        """The slip of a track's stretch from media time a to b, of form 2 where one of its numbers is 2^32 or more, which
        only a movie made of its moov alone can have. Refusals 14, 15; and 11 where a track of the movie stores
        another duration than the total of its samples' durations."""
        pair_bytes = _SLIP_PAIR_BYTES if self._length is None else _SLIP_WIDE_PAIR_BYTES
        out = _room(ctypes.c_uint8, _SLIP_HEAD_BYTES + pair_bytes * self._chunks(track))
        length, = self._ask("write_slip", 1, track, a, b, room=out)
        return bytes(memoryview(out)[:length])

    def fragments(self) -> Fragments:
        """Whether the film has fragments, whose samples are not read."""
        announced, present = self._ask("fragments", 2)
        return Fragments(announced == 1, present == 1 or self._moofs > 0)

    def moov_bytes(self) -> range:
        """Where the moov atom stands in what the movie was made of; a moov alone is all of it."""
        if self._length is not None:
            return range(len(self._lent))
        place, size, _ = _moov_in(io.BytesIO(self._lent), len(self._lent))
        return range(place, place + size)

    def compact(self) -> bytes:
        """The moov atom written anew with compact tables: its stts and stsc have the fewest entries that say the same, and
        the bytes freed in a track are one free atom. It is as long as the moov was. With it in the moov's place no offset
        moves and every question gets the same answer, so slips of the film stay good."""
        room = _room(ctypes.c_uint8, len(self.moov_bytes()))
        length, = self._ask("compact", 1, room=room)
        return bytes(memoryview(room)[:length])

    def profile(self, track: int) -> Tuple[ProfileRecord, ...]:
        """The stored profile of a track, or for 0 of the movie: its records with a code other than 0; none where there
        is no profile. Refusal 14 (not for 0)."""
        room = _room(ctypes.c_uint32, _RECORD_NUMBERS * _MAX_RECORDS)
        count, = self._ask("profile", 1, track, room=room)
        rows = _rows(room, count, _RECORD_NUMBERS)
        return tuple(ProfileRecord(part, _characters(code), value) for part, code, value in rows)

    def check_profile(self, track: int) -> Optional[int]:
        """Whether the stored profile of a track is true: None if it is, also without one; or the place of the first record
        at fault, from 1, in profile. Of its records with the part-ID UNIVERSAL_PART each with the code of a feature is at
        least that feature, tvsz in each half; and the values of those with the code vfmt in a vide track, or afmt in a soun
        track, if there are any, are exactly the formats of the track's descriptions. Refusal 14."""
        place, = self._ask("check_profile", 1, track)
        return place or None

    def check_quay(self) -> Optional[QuayFault]:
        """Whether the movie keeps the quay film profile: None if it does; or the lowest of its rules that any track breaks,
        with the first track that breaks it."""
        rule, track = self._ask("check_quay", 2)
        return QuayFault(rule, track or None) if rule else None

    def feature(self, track: int, code: str) -> int:
        """A feature computed from a track's tables, by its code: bits a second for avvb, avab, mvbr and mabr; width *
        65536 + height for tvsz; frames a second * 65536 for vfps. avvb and avab are taken over the samples that the
        track's edits show, or without an edit list over the whole media. Refusals 14, 18; every code that is not in FEATURES
        is refused 18."""
        value, = self._ask("feature", 1, track, _code(code))
        return value

    def features(self, track: int) -> Dict[str, int]:
        """The features that can be computed of a track, by their codes; those that are refused 18 are left out.
        Refusal 14."""
        values = {}
        for code in FEATURES:
            try:
                values[code] = self.feature(track, code)
            except Refused as refused:
                if refused.number != Refusal.NOT_COMPUTED:
                    raise
        return values

    def peak(self, track: int, code: str) -> Peak:
        """Where a track has its highest bit rate over one second, by its code, mvbr or mabr: the first run of samples
        that has the greatest. Refused as that feature is; every other code is refused 18."""
        return Peak(*self._ask("peak", 2, track, _code(code)))

    def _chunks(self, track: int) -> int:
        """How many pairs a slip of a track has at most. The library refuses an unknown ID, whatever the room."""
        return next((known.chunks for known in self._tracks if known.id == track), 0)

    def _ask(self, name: str, count: int, *numbers: int, room: Any = None, place: Any = ctypes.c_uint64) -> Any:
        """Puts a question about the file; what comes back are its places, as many as count."""
        lent = (room, len(room)) if room is not None else ()
        places = (place * count)()
        asked = [_number(number) for number in numbers]
        if self._length is not None:
            name, asked = "moov_" + name, [self._length, *asked]
        answer = _function(name)(self._lent, len(self._lent), *asked, *lent, places, count)
        if answer != 0:
            raise Refused(answer)
        return list(places)


class Opened:
    """A track that Movie.opened has opened. Its answers are those of the movie."""

    def __init__(self, lent: bytes, track: Track, numbers: Any) -> None:
        self._lent, self._track = lent, track
        self._handle = (ctypes.c_uint64 * _OPENED_NUMBERS)(*numbers)

    def sample(self, n: int) -> Sample:
        """Sample n, numbered from 1. Refusal 15."""
        return _sample(self._ask("opened_sample", 8, n, place=ctypes.c_int64))

    def sample_at(self, t: int) -> SampleAt:
        """The sample at media time t. Refusal 15."""
        return SampleAt(*self._ask("opened_sample_at", 2, t))

    def media_time(self, t: int) -> Optional[int]:
        """The media time that the track shows at movie time t; None where nothing is shown. Refusal 15."""
        shown, media = self._ask("opened_media_time", 2, t)
        return media if shown else None

    def samples(self, start: Optional[int] = None) -> Iterator[Sample]:
        """The samples, in order, from sample start on, numbered from 1; without a start all of them, of which there may
        be none. Refusal 15 where there is no sample start, raised by this call."""
        if start is None and self._track.samples == 0:
            return iter(())
        return _stepped(self._lent, self._ask("opened_step_start", _STEPPER_NUMBERS, 1 if start is None else start))

    def columns(self, start: Optional[int] = None) -> "Columns":
        """The same as samples, as columns."""
        if start is None and self._track.samples == 0:
            return _columns(self._lent, (), 0)
        first = 1 if start is None else start
        position = self._ask("opened_step_start", _STEPPER_NUMBERS, first)
        return _columns(self._lent, position, self._track.samples + 1 - first)

    def stretch(self, a: int, b: int) -> Stretch:
        """The bytes of the track from media time a to b. Refusal 15."""
        room = _room(ctypes.c_uint64, _PAIR_NUMBERS * self._track.chunks)
        count, total = self._ask("opened_stretch", 2, a, b, room=room)
        return Stretch(_pairs(room, count), total)

    def indexed(self) -> "Indexed":
        """The track with its index, in one pass over its tables."""
        checkpoints = -(-self._track.samples // _CHECKPOINT_SAMPLES)
        index = _room(ctypes.c_uint64, _CHECKPOINT_NUMBERS * checkpoints)
        self._ask("index", 1, room=index)
        return Indexed(self, index)

    def _ask(self, name: str, count: int, *numbers: int, index: Any = None, room: Any = None,
             place: Any = ctypes.c_uint64) -> Any:
        """Puts a question by the handle, and by an index if there is one."""
        read = (index, len(index)) if index is not None else ()
        lent = (room, len(room)) if room is not None else ()
        places = (place * count)()
        asked = [_number(number) for number in numbers]
        handle = (self._handle, len(self._handle))
        answer = _function(name)(self._lent, len(self._lent), *handle, *read, *asked, *lent, places, count)
        if answer != 0:
            raise Refused(answer)
        return list(places)


class FilmReturn:
    """The quarter's film return: totals over many films."""

    def __init__(self) -> None:
        self._numbers = (ctypes.c_uint64 * _FILM_RETURN_NUMBERS)()

    def add(self, film: Union[Bytes, Name]) -> None:
        """Adds a film, be it accepted or refused under its number, by the bytes of its file or by the file's name, of which
        the moov alone is read. Refusals 20, 21, with which the return is left without any of the film."""
        if isinstance(film, (str, os.PathLike)):
            self._add_named(film)
        else:
            self._add("film_return", _lent(film))

    def _add_named(self, name: Name) -> None:
        try:
            moov = Moov.read(name)
        except Refused as refused:
            # The film's top level: it is counted by a moov that is refused with the same number.
            moov = Moov(*_REFUSED_AT_TOP_LEVEL[refused.number])
        self.add_moov(moov.bytes, moov.length)

    def add_moov(self, moov: Bytes, length: int) -> None:
        """The same by its moov alone, with the length of its file."""
        self._add("moov_film_return", _lent(moov), _number(length, 64))

    def join(self, other: "FilmReturn") -> None:
        """Joins another return to this one: its own time scales first, then those of the other that it has not, in their order.
        Refusals 20, 21, with which this return is left as it was."""
        more = type(other._numbers)(*other._numbers)  # a copy: a return may be joined to itself, and what is lent must not overlap
        answer = _join_returns(more, len(more), self._numbers, len(self._numbers))
        if answer != 0:
            raise Refused(answer)

    def __add__(self, other: "FilmReturn") -> "FilmReturn":
        """The return of both, by join."""
        if not isinstance(other, FilmReturn):
            return NotImplemented
        both = FilmReturn()
        both._numbers[:] = self._numbers[:]
        both.join(other)
        return both

    def _add(self, name: str, lent: bytes, *numbers: int) -> None:
        answer = _function(name)(lent, len(lent), *numbers, self._numbers, len(self._numbers))
        if answer != 0:
            raise Refused(answer)

    @property
    def accepted(self) -> int:
        """How many films are accepted."""
        return self._numbers[0]

    @property
    def refused(self) -> Dict[int, int]:
        """How many films are refused, by the number of the refusal."""
        return dict(zip((*range(1, 14), 19), self._numbers[1:15]))

    @property
    def tracks(self) -> int:
        """The tracks of the accepted films."""
        return self._numbers[15]

    @property
    def samples(self) -> int:
        """Their samples."""
        return self._numbers[16]

    @property
    def bytes(self) -> int:
        """Their film bytes: the sizes of all samples."""
        return self._numbers[17]

    @property
    def scales(self) -> Dict[int, int]:
        """Each media time scale met, in order of first meeting, with the film time of its tracks in units of it."""
        held, first, after = min(self._numbers[18], _MAX_SCALES), 19, 19 + _MAX_SCALES
        return dict(zip(self._numbers[first:first + held], self._numbers[after:after + held]))


class Indexed:
    """An opened track with its index, which Opened.indexed has made. Its answers are those of the opened track, in time that
    does not grow with the entries of the tables before a sample."""

    def __init__(self, opened: Opened, index: Any) -> None:
        self._opened, self._index = opened, index

    def sample(self, n: int) -> Sample:
        """Sample n, numbered from 1. Refusal 15."""
        return _sample(self._opened._ask("indexed_sample", 8, n, index=self._index, place=ctypes.c_int64))

    def sample_at(self, t: int) -> SampleAt:
        """The sample at media time t. Refusal 15."""
        return SampleAt(*self._opened._ask("indexed_sample_at", 2, t, index=self._index))


def _sample(numbers: Any) -> Sample:
    """The sample of the numbers that the library answers."""
    decode, duration, composition, sync, *rest = numbers
    return Sample(decode, duration, composition, sync == 1, *rest)


def _columns(lent: bytes, start: Any, samples: int) -> Columns:
    """So many samples from a position on, as columns of one table."""
    table = _table(samples * _SAMPLE.size)
    if samples:
        stepper = (ctypes.c_uint64 * _STEPPER_NUMBERS)(*start)
        room = (ctypes.c_int64 * (samples * _SAMPLE_NUMBERS)).from_buffer(table)
        count = (ctypes.c_uint64 * 1)()
        answer = _function("steps")(lent, len(lent), stepper, len(stepper), room, len(room), count, 1)
        if answer != 0:
            raise Refused(answer)
    numbers = memoryview(table).cast("q")
    return Columns(*(numbers[place::_SAMPLE_NUMBERS] for place in range(_SAMPLE_NUMBERS)))


def _table(size: int) -> Any:
    """So many bytes of memory from the system, in large pages where there are such: to touch 64 MB of small ones for the first
    time takes several times as long as to fill them with samples."""
    if size == 0:
        return bytearray()
    table = mmap.mmap(-1, size, flags=mmap.MAP_PRIVATE | mmap.MAP_ANONYMOUS)
    if size >= _LARGE_PAGE and hasattr(mmap, "MADV_HUGEPAGE"):
        table.madvise(mmap.MADV_HUGEPAGE)
    return table


def _stepped(lent: bytes, start: Any) -> Iterator[Sample]:
    """The samples from a position on. Each iterator has a position and a room of its own."""
    # By tuple's own constructor, since _make is written in Python and takes three times as long.
    return map(functools.partial(tuple.__new__, Sample), itertools.chain.from_iterable(_batches(lent, start)))


def _batches(lent: bytes, start: Any) -> Iterator[Iterator[Any]]:
    """The samples from a position on as tuples of their numbers, many at a time."""
    stepper = (ctypes.c_uint64 * _STEPPER_NUMBERS)(*start)
    room = _room(ctypes.c_int64, _SAMPLE_NUMBERS * _FETCHED)
    numbers = memoryview(room).cast("B")
    count = (ctypes.c_uint64 * 1)(_FETCHED)
    # Fewer than the room takes come only at the end.
    while count[0] == _FETCHED:
        answer = _function("steps")(lent, len(lent), stepper, len(stepper), room, len(room), count, 1)
        if answer != 0:
            raise Refused(answer)
        yield _SAMPLE.iter_unpack(bytes(numbers[:count[0] * _SAMPLE.size]))


def read_slip(slip: Bytes) -> Slip:
    """Reads a slip of form 1, which must take up all of the bytes. What is no slip is refused 17, as MalformedSlip."""
    return _read("read_slip", ctypes.c_uint32, _lent(slip))


def read_any_slip(slip: Bytes) -> Slip:
    """Reads a slip of form 1 or 2, which must take up all of the bytes. The numbers of form 2 are below 2^64, and one of
    them is 2^32 or more. What is no slip is refused 17, as MalformedSlip."""
    return _read("read_any_slip", ctypes.c_uint64, _lent(slip))


def _read(reader: str, kind: Any, slip: bytes) -> Slip:
    # Each number of a pair takes a byte at least.
    room = _room(kind, _PAIR_NUMBERS * min(len(slip) // 2, _MAX_PAIRS))
    places = (ctypes.c_uint64 * 6)()
    answer = _function(reader)(slip, len(slip), room, len(room), places, len(places))
    track, scale, a, b, count, place = places
    if answer == Refusal.MALFORMED_SLIP:
        raise MalformedSlip(place)
    if answer != 0:
        raise Refused(answer)
    # The form is a number of one byte.
    return Slip(track, scale, a, b, _pairs(room, count), slip[0])


# A moov and a length of a file that are refused 1, 2 and 3, as a film's top level may be.
_REFUSED_AT_TOP_LEVEL = {1: (b"", 2**63), 2: (b"\0\0\0\7moov", 8), 3: (b"\0\0\0\10moov", 8)}


def _moov_in(film: BinaryIO, length: int) -> Tuple[int, int, int]:
    """The place and the size of a film's moov, which the library finds by the headers at top level, and how many of those
    are fragments."""
    fragments = 0
    places = (ctypes.c_uint64 * _TOP_LEVEL_PLACES)(_number(length, 64))
    while not places[5]:
        place = places[1]
        header = _read_at(film, place, min(_HEADER_BYTES, length - place))
        fragments += _is_fragment(header, len(header))
        answer = _function("top_level_step")(header, len(header), places, len(places))
        if answer != 0:
            raise Refused(answer)
    return places[3], places[4], fragments


def _children(lent: bytes, begin: int, end: int) -> Iterator[Tuple[int, int, bytes]]:
    """Where the atoms inside one begin and end, and their types, as far as their sizes are right."""
    # Only the moov itself, which stands at top level, may have a size of 64 bits.
    at = begin + (16 if lent[begin:begin + 4] == b"\0\0\0\1" else 8)
    while at + 8 <= end:
        size = int.from_bytes(lent[at:at + 4], "big")
        if size < 8 or at + size > end:
            return
        yield at, at + size, lent[at + 4:at + 8]
        at += size


def _read_at(film: BinaryIO, place: int, count: int) -> bytes:
    """So many bytes of a film, which were there when its length was asked."""
    film.seek(place)
    read = b""
    while len(read) < count:
        more = film.read(count - len(read))
        if not more:
            raise OSError("the film became shorter while it was read")
        read += more
    return read


# How each function is called after its first two parameters, the bytes and their length, and before its last two, the
# places and their number: l is the length of a file, n is a number, r is room, out, a stepper, a handle or an index and its
# length.
_PARAMETERS = {
    "track_list": "r",
    "sample": "nn",
    "sample_bytes": "nn",
    "sample_at": "nn",
    "media_time": "nn",
    "stretch": "nnnr",
    "profile": "nr",
    "check_profile": "n",
    "check_quay": "",
    "feature": "nn",
    "peak": "nn",
    "movie": "",
    "edits": "nr",
    "read_slip": "r",
    "read_any_slip": "r",
    "write_slip": "nnnr",
    "compact": "r",
    "fragments": "",
    "top_level_step": "",
    "film_return": "",
    "step_start": "nn",
    "step": "r",
    "steps": "rr",
    "open": "n",
    "opened_sample": "rn",
    "opened_sample_at": "rn",
    "opened_media_time": "rn",
    "opened_stretch": "rnnr",
    "opened_step_start": "rn",
    "index": "rr",
    "indexed_sample": "rrn",
    "indexed_sample_at": "rrn",
}
_MOOV = (
    "track_list", "sample", "sample_at", "media_time", "stretch", "profile", "check_profile", "check_quay", "feature",
    "peak", "movie", "edits", "film_return", "write_slip", "compact", "fragments", "step_start", "open",
)
_PARAMETERS.update({"moov_" + name: "l" + _PARAMETERS[name] for name in _MOOV})

def _library_name() -> str:
    """The library beside this file, or the name by which the loader finds it."""
    beside = os.path.join(os.path.dirname(os.path.abspath(__file__)), "libchaldoref.so.1")
    return beside if os.path.exists(beside) else "libchaldoref.so.1"


# A call through CDLL lets other threads of Python run, as the library keeps no state.
_library = ctypes.CDLL(_library_name())

# 1 where the atom with that header is a fragment, else 0.
_join_returns = _library.chaldoref_join_returns
_join_returns.argtypes, _join_returns.restype = (ctypes.c_void_p, ctypes.c_size_t) * 2, ctypes.c_uint32

_is_fragment = _library.chaldoref_is_fragment
_is_fragment.argtypes, _is_fragment.restype = (ctypes.c_char_p, ctypes.c_size_t), ctypes.c_uint32


def library_version() -> str:
    """The version of the library that answers: that of this module, where the two belong together."""
    function = _library.chaldoref_version
    function.argtypes, function.restype = (), ctypes.c_uint32
    number = function()
    return f"{number // 1_000_000}.{number // 1_000 % 1_000}.{number % 1_000}"


def _declared(name: str) -> Any:
    """A function of the library with its types."""
    # A bytes object is passed as the pointer to its first byte, which is not NULL for empty ones.
    types = [ctypes.c_char_p, ctypes.c_size_t]
    for letter in _PARAMETERS[name]:
        types += {"n": [ctypes.c_uint32], "l": [ctypes.c_uint64], "r": [ctypes.c_void_p, ctypes.c_size_t]}[letter]
    function = getattr(_library, "chaldoref_" + name)
    function.argtypes = types + [ctypes.c_void_p, ctypes.c_size_t]
    function.restype = ctypes.c_uint32
    return function


_FUNCTIONS = {name: _declared(name) for name in _PARAMETERS}


def _function(name: str) -> Any:
    return _FUNCTIONS[name]


def _lent(given: Bytes) -> bytes:
    """Bytes that nothing can change in a call. What is not made of bytes, such as a number or text, is a TypeError."""
    return given if isinstance(given, bytes) else bytes(memoryview(given))


def _room(kind: Any, count: int) -> Any:
    """Room for so many numbers, and for one where there are none, so that its pointer is not NULL."""
    return (kind * max(count, 1))()


def _number(number: int, bits: int = 32) -> int:
    """A number of so many bits without a sign: ctypes would cut off the rest of any other."""
    number = operator.index(number)
    if not 0 <= number < 2**bits:
        raise ValueError(f"{number} is not in 0 to {2**bits - 1}")
    return number


def _code(code: str) -> int:
    """A four-character code as its big-endian number."""
    if len(code) != 4 or max(code) > "\xff":
        raise ValueError(f"{code!r} is not a four-character code")
    return int.from_bytes(code.encode("latin-1"), "big")


def _characters(code: int) -> str:
    """The four characters of a code."""
    return code.to_bytes(4, "big").decode("latin-1")


def _rows(room: Any, count: int, width: int) -> Any:
    """The first rows of a room, each as a list of its numbers."""
    numbers = room[:count * width]
    return (numbers[i:i + width] for i in range(0, len(numbers), width))


def _pairs(room: Any, count: int) -> Tuple[ByteRange, ...]:
    """The first pairs of a room."""
    return tuple(ByteRange(*pair) for pair in _rows(room, count, _PAIR_NUMBERS))
