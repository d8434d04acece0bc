"""Tests of the Python module, on film W with document 01's worked cases and on the film of two hoses.

They run in the repository's top folder, whose films and header they read, with the library in a folder that the loader
searches and the module beside this file or on PYTHONPATH:

    LD_LIBRARY_PATH=FOLDER python3 host/python/test_chaldoref.py
"""
import ctypes
import io
import pickle
import re
import struct
import tempfile
import threading
import unittest
from pathlib import Path

import chaldoref
from chaldoref import (
    FEATURES, UNIVERSAL_PART, ByteRange, FilmReturn, Fragments, MalformedSlip, Moov, Movie, Peak, ProfileRecord, QUAY_RULES, QuayFault, Refusal, Refused,
    Sample, SampleAt, Stretch, Track, read_any_slip, read_slip,
)

W = Path("films/w.mov").read_bytes()
TWO_HOSES = Path("films/two-hoses.mov").read_bytes()
HEADER = Path("include/chaldoref.h").read_text()
SLIP = bytes.fromhex("01 01 D8 04 18 49 02 CC 08 32 84 07 46")


def changed(file, place, number):
    """A film with other bytes at the place of a 32-bit number."""
    return file[:place] + number.to_bytes(4, "big", signed=number < 0) + file[place + 4:]


def body(file, kind):
    """The place of the only atom of a kind: of the first byte of its body."""
    assert file.count(kind) == 1
    return file.index(kind) + 4


def resized(file, kinds, extra):
    """A film in which the sizes of the only atoms of some kinds count extra bytes more."""
    for kind in kinds:
        place = body(file, kind) - 8
        file = changed(file, place, int.from_bytes(file[place:place + 4], "big") + extra)
    return file


def atom(kind, content):
    return (8 + len(content)).to_bytes(4, "big") + kind + content


def with_atom(file, added, before, parents):
    """A film with an atom more before the only one of a kind. The media moves with what follows, and stco tells so."""
    place = body(file, before) - 8
    file = resized(file, parents, len(added))
    file = file[:place] + added + file[place:]
    stco = body(file, b"stco") + 8
    for chunk in (stco, stco + 4):
        file = changed(file, chunk, int.from_bytes(file[chunk:chunk + 4], "big") + len(added))
    return file


def numbers(*given):
    return b"".join(number.to_bytes(4, "big", signed=number < 0) for number in given)


def with_edits(*edits):
    """Film W with an edit list of durations and media times."""
    entries = b"".join(numbers(duration, media, 65536) for duration, media in edits)
    return with_atom(W, atom(b"edts", atom(b"elst", numbers(0, len(edits)) + entries)), b"mdia", (b"moov", b"trak"))


def rebuilt(file, bodies):
    """Atoms in which those of some kinds have other bodies."""
    made, place = b"", 0
    while place < len(file):
        size, kind = int.from_bytes(file[place:place + 4], "big"), file[place + 4:place + 8]
        content = file[place + 8:place + size]
        inner = kind in (b"moov", b"trak", b"mdia", b"minf", b"stbl")
        made += atom(kind, rebuilt(content, bodies) if inner else bodies.get(kind, content))
        place += size
    return made


def long_moov(samples):
    """The moov of film W with a track of so many samples in one chunk, of 0 to 6 bytes."""
    numbers = lambda *given: struct.pack(f">{len(given)}I", *given)
    return rebuilt(W[:int.from_bytes(W[:4], "big")], {
        b"stts": numbers(0, 1, samples, 24),
        b"stsc": numbers(0, 1, 1, samples, 1),
        b"stsz": numbers(0, 0, samples, *(n % 7 for n in range(samples))),
        b"stco": numbers(0, 1, 4096),
    })


class Case(unittest.TestCase):
    def assertRefused(self, number, question, *asked):
        with self.assertRaises(Refused) as raised:
            question(*asked)
        self.assertEqual(raised.exception.number, number)
        return raised.exception


class FilmW(Case):
    def setUp(self):
        self.movie = Movie(W)

    def test_tracks(self):
        self.assertEqual(self.movie.tracks(), (Track(1, "vide", 600, 120, 4, 2, 0, 120),))
        self.assertIs(self.movie.file, W)

    def test_samples_at_times(self):
        for t, n, entry in ((0, 1, 1), (23, 1, 1), (24, 2, 1), (71, 3, 1), (72, 4, 2), (119, 4, 2)):
            self.assertEqual(self.movie.sample_at(1, t), SampleAt(n, entry))
        self.assertRefused(15, self.movie.sample_at, 1, 120)

    def test_samples(self):
        self.assertEqual(self.movie.sample(1, 3), Sample(48, 24, 48, True, 1, 1, 1150, 0))
        self.assertEqual(self.movie.sample(1, 4), Sample(72, 48, 72, True, 1, 2, 900, 70))
        self.assertRefused(15, self.movie.sample, 1, 0)
        self.assertRefused(15, self.movie.sample, 1, 5)
        self.assertRefused(14, self.movie.sample, 2, 1)

    def test_samples_stepped_through(self):
        for movie in (self.movie, Movie.read("films/w.mov")):
            each = [movie.sample(1, n) for n in range(1, 5)]
            self.assertEqual(list(movie.samples(1)), each)
            self.assertEqual([list(movie.samples(1, n)) for n in range(1, 5)], [each[n:] for n in range(4)])
            # Two at once do not disturb each other.
            one, other = movie.samples(1), movie.samples(1, 3)
            self.assertEqual([next(one), next(other), next(one), next(other)], [each[0], each[2], each[1], each[3]])
            self.assertEqual(next(other, None), None)
        self.assertRefused(15, self.movie.samples, 1, 0)
        self.assertRefused(15, self.movie.samples, 1, 5)
        self.assertRefused(14, self.movie.samples, 2)

    def test_columns(self):
        for film in (W, TWO_HOSES):
            movie = Movie(film)
            for track in movie.tracks():
                for start in (None, 1, 3, track.samples):
                    columns = movie.columns(track.id, start)
                    self.assertEqual(columns._fields, Sample._fields)
                    self.assertEqual([Sample(*row) for row in zip(*columns)], list(movie.samples(track.id, start)))
        self.assertEqual((sum(columns.size), columns.size.format, columns.size.itemsize), (16, "q", 8))
        for start in (0, 5):
            self.assertRefused(15, Movie(W).columns, 1, start)
        self.assertRefused(14, Movie(W).columns, 2)
        self.assertIs(type(next(Movie(W).samples(1)).sync), bool)

    def test_columns_of_a_long_track(self):
        samples = 300_000
        movie = Movie.of_moov(long_moov(samples), 2**40)
        columns = movie.columns(1)
        self.assertEqual((len(columns.size), sum(columns.size)), (samples, sum(n % 7 for n in range(samples))))
        for n in (1, 1024, 1025, samples):
            self.assertEqual(Sample(*(column[n - 1] for column in columns)), movie.sample(1, n))
        self.assertEqual(sum(sample.size for sample in movie.samples(1)), sum(columns.size))

    def test_opened_once(self):
        for movie in (self.movie, Movie.read("films/w.mov")):
            track = movie.opened(1)
            self.assertEqual([track.sample(n) for n in range(1, 5)], [movie.sample(1, n) for n in range(1, 5)])
            for t in (0, 23, 24, 71, 119):
                self.assertEqual(track.sample_at(t), movie.sample_at(1, t))
                self.assertEqual(track.media_time(t), movie.media_time(1, t))
            self.assertRefused(15, track.sample, 0)
            self.assertRefused(15, track.sample, 5)
            self.assertRefused(15, track.sample_at, 120)
            self.assertRefused(15, track.media_time, 120)
            self.assertEqual(track.stretch(24, 73), Stretch((ByteRange(1100, 50), ByteRange(900, 70)), 120))
            self.assertEqual(track.stretch(0, 120), movie.stretch(1, 0, 120))
            self.assertEqual(list(track.samples()), [track.sample(n) for n in range(1, 5)])
            self.assertEqual(list(track.samples(4)), [track.sample(4)])
            self.assertRefused(15, track.samples, 0)
            self.assertRefused(15, track.samples, 5)
            self.assertRefused(15, track.stretch, 24, 24)
            self.assertRefused(15, track.stretch, 0, 121)
            self.assertIs(track, movie.opened(1))
        self.assertRefused(14, self.movie.opened, 2)
        self.assertRaises(ValueError, self.movie.opened, 2**32 + 1)
        self.assertRaises(TypeError, self.movie.opened, 1.0)

    def test_indexed(self):
        for movie in (self.movie, Movie.read("films/w.mov")):
            track = movie.opened(1).indexed()
            self.assertEqual([track.sample(n) for n in range(1, 5)], list(movie.samples(1)))
            self.assertEqual([track.sample_at(t) for t in range(120)], [movie.sample_at(1, t) for t in range(120)])
            self.assertRefused(15, track.sample, 0)
            self.assertRefused(15, track.sample, 5)
            self.assertRefused(15, track.sample_at, 120)
            self.assertRaises(ValueError, track.sample, -1)

    def test_too_little_room(self):
        track = self.movie.opened(1)
        short = chaldoref._room(ctypes.c_uint64, 3)
        self.assertRefused(16, lambda: track._ask("opened_stretch", 2, 24, 73, room=short))
        self.assertRefused(16, lambda: track._ask("index", 1, room=short))

    def test_sample_bytes(self):
        self.assertEqual(self.movie.sample_bytes(1, 2), W[1100:1150])
        self.assertEqual(self.movie.sample_bytes(1, 3), b"")
        self.assertRefused(15, self.movie.sample_bytes, 1, 5)

    def test_stretches(self):
        stretch = self.movie.stretch(1, 24, 73)
        self.assertEqual((stretch.pairs, stretch.bytes), ((ByteRange(1100, 50), ByteRange(900, 70)), 120))
        stretch = self.movie.stretch(1, 0, 120)
        self.assertEqual((stretch.pairs, stretch.bytes), ((ByteRange(1000, 150), ByteRange(900, 70)), 220))
        self.assertRefused(15, self.movie.stretch, 1, 24, 24)
        self.assertRefused(14, self.movie.stretch, 2, 24, 73)

    def test_slip(self):
        self.assertEqual(self.movie.write_slip(1, 24, 73), SLIP)
        self.assertRefused(15, self.movie.write_slip, 1, 24, 24)
        self.assertRefused(14, self.movie.write_slip, 2, 24, 73)

    def test_compact(self):
        place = self.movie.moov_bytes()
        moov = self.movie.file[place.start:place.stop]
        # Its tables are compact already.
        self.assertEqual(self.movie.compact(), moov)
        # A run for each of its samples: 24 units three times, and 48.
        few = struct.pack(">I4sI5I", 32, b"stts", 0, 2, 3, 24, 1, 48)
        many = struct.pack(">I4sI9I", 48, b"stts", 0, 4, 1, 24, 1, 24, 1, 24, 1, 48)
        self.assertEqual(moov.count(few), 1)
        wasteful = resized(moov.replace(few, many), [b"moov", b"trak", b"mdia", b"minf", b"stbl"], 16)
        movie = Movie.of_moov(wasteful, 4096)
        compact = movie.compact()
        self.assertEqual((len(compact), compact[-16:]), (len(wasteful), struct.pack(">I4s8x", 16, b"free")))
        after = Movie.of_moov(compact, 4096)
        self.assertEqual(list(after.samples(1)), list(movie.samples(1)))
        self.assertEqual(after.write_slip(1, 24, 73), SLIP)
        self.assertEqual(after.compact(), compact)

    def test_features(self):
        self.assertEqual(self.movie.feature(1, "avvb"), 8800)
        self.assertEqual(self.movie.feature(1, "vfps"), 0x00190000)
        self.assertRefused(18, self.movie.feature, 1, "avab")
        self.assertRefused(18, self.movie.feature, 1, "\xa9cpy")
        self.assertRefused(14, self.movie.feature, 2, "avvb")
        expected = {"avvb": 8800, "tvsz": 320 * 65536 + 240, "vfps": 0x00190000, "mvbr": 8800}
        self.assertEqual(self.movie.features(1), expected)
        self.assertRefused(14, self.movie.features, 2)

    def test_peak(self):
        self.assertEqual(self.movie.peak(1, "mvbr"), Peak(1, 4))
        self.assertRefused(18, self.movie.peak, 1, "mabr")
        self.assertRefused(18, self.movie.peak, 1, "avvb")
        self.assertRefused(14, self.movie.peak, 2, "mvbr")

    def test_no_profile(self):
        self.assertEqual((self.movie.profile(0), self.movie.profile(1)), ((), ()))
        self.assertRefused(14, self.movie.profile, 2)

    def test_media_time_without_edits(self):
        self.assertEqual((self.movie.media_time(1, 0), self.movie.media_time(1, 60)), (0, 60))
        self.assertRefused(15, self.movie.media_time, 1, 120)


class FilmsMadeOfW(Case):
    def test_edits(self):
        movie = Movie(with_edits((60, -1), (60, 24)))
        self.assertEqual(movie.tracks()[0].edits, 2)
        self.assertIsNone(movie.media_time(1, 59))
        self.assertEqual((movie.media_time(1, 60), movie.media_time(1, 119)), (24, 83))
        self.assertRefused(15, movie.media_time, 1, 120)
        self.assertRefused(13, Movie, with_edits((60, -1), (60, 61)))
        self.assertEqual(Movie(with_edits((60, -1), (60, 60))).media_time(1, 119), 119)

    def test_highest_frame_rate(self):
        mdhd, stts = body(W, b"mdhd"), body(W, b"stts")
        film = W
        for place, number in ((mdhd + 12, 30000), (mdhd + 16, 3 * 1001 + 2002), (stts + 12, 1001), (stts + 20, 2002)):
            film = changed(film, place, number)
        self.assertEqual(Movie(film).feature(1, "vfps"), 0x001DF854)

    def test_stored_duration(self):
        movie = Movie(changed(W, body(W, b"mdhd") + 16, 121))
        self.assertEqual((movie.tracks()[0].total, movie.tracks()[0].stored), (120, 121))
        self.assertEqual(movie.stretch(1, 24, 73), Movie(W).stretch(1, 24, 73))
        self.assertRefused(11, movie.write_slip, 1, 24, 73)
        self.assertRefused(11, movie.write_slip, 2, 24, 73)

    def test_data_elsewhere(self):
        # The lowest flag bit of the one data reference, and a reference index of 2.
        self.assertRefused(19, Movie, changed(W, body(W, b"dref") + 16, 0))
        self.assertRefused(19, Movie, changed(W, body(W, b"stsd") + 20, 2))

    def test_chunk_past_the_end(self):
        second = body(W, b"stco") + 12
        self.assertRefused(12, Movie, changed(W, second, 4027))
        self.assertEqual(Movie(changed(W, second, 4026)).sample(1, 4).offset, 4026)

    def test_negative_composition_time(self):
        ctts = atom(b"ctts", numbers(0, 1, 4, -50))
        movie = Movie(with_atom(W, ctts, b"stsc", (b"moov", b"trak", b"mdia", b"minf", b"stbl")))
        self.assertEqual([movie.sample(1, n).composition for n in (1, 2, 3, 4)], [-50, -26, -2, 22])

    def test_profile(self):
        avvb, none = int.from_bytes(b"avvb", "big"), 0
        prfl = atom(b"prfl", numbers(0, 2, 0, 7, avvb, 8800, 0, 7, none, 5))
        self.assertEqual(Movie(with_atom(W, prfl, b"tkhd", (b"moov", b"trak"))).profile(1),
                         (ProfileRecord(7, "avvb", 8800),))
        self.assertEqual(Movie(with_atom(W, prfl, b"mvhd", (b"moov",))).profile(0), (ProfileRecord(7, "avvb", 8800),))

    def test_check_quay(self):
        self.assertEqual(Movie(W).check_quay(), QuayFault(6, 1))
        self.assertIs(Movie(TWO_HOSES).check_quay(), None)
        self.assertEqual(QUAY_RULES[6], "no zero sizes")

    def test_check_profile(self):
        avvb = int.from_bytes(b"avvb", "big")
        for value, fault in ((8800, None), (8799, 2)):
            prfl = atom(b"prfl", numbers(0, 2, 0, 7, avvb, 1, 0, UNIVERSAL_PART, avvb, value))
            self.assertEqual(Movie(with_atom(W, prfl, b"tkhd", (b"moov", b"trak"))).check_profile(1), fault)
        self.assertIs(Movie(W).check_profile(1), None)
        self.assertRefused(14, Movie(W).check_profile, 0)


class Returns(Case):
    def test_two_films_and_none(self):
        quarter = FilmReturn()
        for film in (W, TWO_HOSES, b""):
            quarter.add(film)
        self.assertEqual((quarter.accepted, quarter.tracks, quarter.samples, quarter.bytes), (2, 3, 16, 412))
        self.assertEqual({number: films for number, films in quarter.refused.items() if films}, {3: 1})
        self.assertEqual(quarter.scales, {600: 408})
        size = int.from_bytes(W[:4], "big")
        quarter.add_moov(W[:size], len(W))
        self.assertEqual((quarter.accepted, quarter.scales), (3, {600: 528}))

    def test_returns_joined(self):
        parts, whole = [], FilmReturn()
        for film in (W, TWO_HOSES, b""):
            parts.append(FilmReturn())
            parts[-1].add(film)
            whole.add(film)
        both = parts[0] + parts[1]
        self.assertEqual((parts[0].accepted, both.accepted), (1, 2))
        self.assertEqual(list((both + parts[2])._numbers), list(whole._numbers))
        both.join(both)
        self.assertEqual((both.accepted, both.tracks), (4, 6))
        great = FilmReturn()
        great._numbers[17] = 2**64 - 1
        before = list(great._numbers)
        for join in (lambda: great.join(parts[0]), lambda: great + parts[0]):
            with self.assertRaises(Refused) as caught:
                join()
            self.assertEqual(caught.exception.number, 21)
        self.assertEqual(list(great._numbers), before)
        self.assertRaises(TypeError, lambda: great + 1)

    def test_films_by_their_names(self):
        by_bytes, by_name = FilmReturn(), FilmReturn()
        with tempfile.TemporaryDirectory() as folder:
            for i, film in enumerate((W, TWO_HOSES, b"", b"no film", W + W, W[:1000])):
                name = Path(folder) / str(i)
                name.write_bytes(film)
                by_bytes.add(film)
                by_name.add(name if i % 2 else str(name))
        self.assertEqual(list(by_bytes._numbers), list(by_name._numbers))
        self.assertRaises(FileNotFoundError, by_name.add, "films/none.mov")


class TwoHoses(Case):
    def setUp(self):
        self.movie = Movie(TWO_HOSES)

    def test_tracks(self):
        hose = ("vide", 600, 144, 6, 3, 0, 144)
        self.assertEqual(self.movie.tracks(), (Track(1, *hose), Track(2, *hose)))

    def test_pictures(self):
        for hose in (1, 2):
            for n in range(1, 7):
                self.assertEqual(self.movie.sample_bytes(hose, n), f"hose {hose} picture {n}".encode())

    def test_second_hose(self):
        stretch = self.movie.stretch(2, 0, 144)
        self.assertEqual(stretch.pairs, (ByteRange(1092, 32), ByteRange(1156, 32), ByteRange(1220, 32)))
        self.assertEqual(stretch.bytes, 96)

    def test_film_time_filed(self):
        slips = [read_slip(self.movie.write_slip(2, a, b)) for a, b in ((0, 24), (24, 144))]
        self.assertEqual([slip.film_time for slip in slips], [24, 120])
        self.assertEqual([slip.bytes for slip in slips], [16, 80])

    def test_threads(self):
        found = []
        threads = [threading.Thread(target=lambda t=t: found.append(self.movie.sample_at(1, t).sample)) for t in range(144)]
        for thread in threads:
            thread.start()
        for thread in threads:
            thread.join()
        self.assertEqual(sorted(found), [n for n in range(1, 7) for _ in range(24)])


class Slips(Case):
    def test_read(self):
        slip = read_slip(SLIP)
        self.assertEqual((slip.track, slip.scale, slip.a, slip.b), (1, 600, 24, 73))
        self.assertEqual(slip.pairs, (ByteRange(1100, 50), ByteRange(900, 70)))
        self.assertEqual((slip.film_time, slip.bytes), (49, 120))

    def test_places_of_faults(self):
        a_not_below_b = bytes.fromhex("01 01 D8 04 18 18 02 CC 08 32 84 07 46")
        for slip, place in ((b"", 0), (SLIP[:12], 12), (SLIP + b"\0", 13), (b"\2" + SLIP[1:], 0), (a_not_below_b, 5)):
            refused = self.assertRefused(17, read_slip, slip)
            self.assertIsInstance(refused, MalformedSlip)
            self.assertEqual(refused.place, place)
            self.assertEqual(str(refused), f"refused 17: a slip is malformed, at place {place}")


class Asking(Case):
    def test_nothing_is_lent_as_null(self):
        self.assertTrue(ctypes.cast(ctypes.c_char_p(b""), ctypes.c_void_p).value)
        self.assertTrue(ctypes.addressof(chaldoref._room(ctypes.c_uint32, 0)))

    def test_what_is_no_movie(self):
        refused = self.assertRefused(3, Movie, b"")
        self.assertEqual(refused.words, "an atom is absent or occurs too often")
        self.assertEqual(str(refused), "refused 3: an atom is absent or occurs too often")
        self.assertRefused(2, Movie, W[:1000])

    def test_other_bytes_are_copied(self):
        given = bytearray(W)
        movies = (Movie(given), Movie(memoryview(given)), Movie(memoryview(b"x" + W)[1:]))
        given[:] = bytes(len(given))
        for movie in movies:
            self.assertEqual(movie.sample_at(1, 24).sample, 2)
        self.assertEqual(read_slip(bytearray(SLIP)), read_slip(SLIP))

    def test_a_file_name_is_not_bytes(self):
        for name in ("films/w.mov", Path("films/w.mov")):
            with self.assertRaisesRegex(TypeError, r"Movie\.read\('films/w\.mov'\)"):
                Movie(name)

    def test_what_is_not_bytes(self):
        for given in (4096, "w.mov", None, [0, 1]):
            self.assertRaises(TypeError, Movie, given)
            self.assertRaises(TypeError, read_slip, given)

    def test_numbers_are_not_cut_off(self):
        movie = Movie(W)
        for number in (-1, 2**32, 2**32 + 1, 2**64 + 1):
            self.assertRaises(ValueError, movie.sample, 1, number)
            self.assertRaises(ValueError, movie.sample_at, number, 0)
            self.assertRaises(ValueError, movie.stretch, 1, 0, number)
        self.assertRefused(15, movie.sample, 1, 2**32 - 1)
        self.assertRaises(TypeError, movie.sample, 1, 1.5)

    def test_codes(self):
        for code in ("", "avv", "avvbx", "avv\u0100"):
            self.assertRaises(ValueError, Movie(W).feature, 1, code)

    def test_refusals_are_pickled(self):
        for refused in (Refused(15), MalformedSlip(5)):
            again = pickle.loads(pickle.dumps(refused))
            self.assertEqual((type(again), again.number, str(again)), (type(refused), refused.number, str(refused)))
            self.assertEqual(vars(again), vars(refused))


class SecondWay(unittest.TestCase):
    """Films by their moov alone."""

    def test_film_w(self):
        whole, alone = Movie(W), Movie.read("films/w.mov")
        self.assertEqual((whole.length, alone.length, whole.file, alone.file), (4096, 4096, W, None))
        self.assertEqual(whole.tracks(), alone.tracks())
        for n in (1, 2, 3, 4):
            self.assertEqual(whole.sample(1, n), alone.sample(1, n))
        self.assertEqual(whole.stretch(1, 24, 73), alone.stretch(1, 24, 73))
        self.assertEqual([movie.write_slip(1, 24, 73) for movie in (whole, alone)], [SLIP, SLIP])
        self.assertEqual(whole.sample_at(1, 71), alone.sample_at(1, 71))
        self.assertEqual(whole.features(1), alone.features(1))
        self.assertEqual([movie.header() for movie in (whole, alone)], [chaldoref.Header(600, 120)] * 2)
        self.assertEqual([movie.edits(1) for movie in (whole, alone)], [(), ()])
        self.assertEqual(alone.profile(0), ())
        self.assertRaises(ValueError, Movie.of_moov(alone._lent, 4096).sample_bytes, 1, 1)
        self.refused(14, alone.edits, 2)

    def test_sample_bytes_of_a_file(self):
        whole = Movie(TWO_HOSES)
        for film in ("films/two-hoses.mov", Path("films/two-hoses.mov"), io.BytesIO(TWO_HOSES)):
            alone = Movie.read(film)
            for track, n in ((1, 1), (2, 2), (2, 6)):
                self.assertEqual(alone.sample_bytes(track, n), whole.sample_bytes(track, n))
            self.refused(15, alone.sample_bytes, 2, 7)
        changed_film = io.BytesIO(TWO_HOSES)
        alone = Movie.read(changed_film)
        changed_film.truncate(len(TWO_HOSES) - 1)
        self.assertRaises(OSError, alone.sample_bytes, 2, 1)

    def test_a_long_file(self):
        alone = Movie.read("films/w.mov")
        long = Movie.of_moov(alone._lent, 2**63 - 1)
        self.assertEqual(long.tracks(), alone.tracks())
        self.refused(1, Movie.of_moov, alone._lent, 2**63)
        self.refused(1, Movie.of_moov, alone._lent, len(alone._lent) - 1)
        self.refused(2, Movie.of_moov, alone._lent + bytes(8), 4096)
        self.assertRaises(ValueError, Movie.of_moov, alone._lent, 2**64)

    def test_what_has_no_moov(self):
        self.refused(3, Movie.read, io.BytesIO(b""))
        self.refused(3, Movie.read, io.BytesIO(bytes([0, 0, 0, 8]) + b"free"))
        self.refused(2, Movie.read, io.BytesIO(b"This is no film."))
        self.refused(3, Movie.read, io.BytesIO(W + W))

    def test_slips_of_form_2(self):
        wide = bytes.fromhex("02 01 D8 04 18 49 01 80 80 80 80 10 0A")
        slip = read_any_slip(wide)
        self.assertEqual((slip.form, slip.pairs), (2, (ByteRange(2**32, 10),)))
        self.assertEqual(read_any_slip(SLIP), read_slip(SLIP))
        with self.assertRaises(MalformedSlip) as raised:
            read_slip(wide)
        self.assertEqual(raised.exception.place, 0)
        with self.assertRaises(MalformedSlip) as raised:
            read_any_slip(bytes([2]) + SLIP[1:])
        self.assertEqual(raised.exception.place, 0)

    def refused(self, number, question, *arguments):
        with self.assertRaises(Refused) as raised:
            question(*arguments)
        self.assertEqual(raised.exception.number, number)


class Version(unittest.TestCase):
    def test_the_headers(self):
        self.assertIn(f'#define CHALDOREF_VERSION "{chaldoref.__version__}"\n', HEADER)

    def test_the_librarys(self):
        self.assertEqual(chaldoref.library_version(), chaldoref.__version__)


class Header(unittest.TestCase):
    """The module has the header's numbers, names and functions."""

    def test_refusals(self):
        constants = dict(re.findall(r"CHALDOREF_(\w+) = (\d+)", HEADER.split("How many places")[0]))
        del constants["ANSWERED"]
        self.assertEqual({name: int(number) for name, number in constants.items()},
                         {refusal.name: refusal.value for refusal in Refusal})
        self.assertEqual(len({refusal.words for refusal in Refusal}), 21)

    def test_sizes(self):
        for name in ("TRACK_NUMBERS", "PAIR_NUMBERS", "RECORD_NUMBERS", "EDIT_NUMBERS", "MAX_TRACKS", "MAX_PAIRS",
                     "MAX_RECORDS", "MAX_EDITS", "SLIP_HEAD_BYTES", "SLIP_PAIR_BYTES", "SLIP_WIDE_PAIR_BYTES",
                     "HEADER_BYTES", "TOP_LEVEL_PLACES", "STEPPER_NUMBERS", "SAMPLE_NUMBERS",
                     "OPENED_NUMBERS", "CHECKPOINT_SAMPLES", "CHECKPOINT_NUMBERS", "FILM_RETURN_NUMBERS", "MAX_SCALES"):
            self.assertIn(f"CHALDOREF_{name} = {getattr(chaldoref, '_' + name)}", HEADER)

    def test_functions(self):
        declared = {name: parameters for name, parameters in re.findall(r"^uint32_t chaldoref_(\w+)\((.*?)\);", HEADER, re.M | re.S)}
        self.assertEqual(declared.pop("version"), "void")
        self.assertEqual(declared.pop("is_fragment"), "const uint8_t *header, size_t header_len")
        self.assertEqual(" ".join(declared.pop("join_returns").split()), "const uint64_t *more, size_t more_len, uint64_t *totals, size_t totals_len")
        self.assertEqual(set(declared), set(chaldoref._PARAMETERS))
        for name, parameters in declared.items():
            # The last pointer and length are the answer's own.
            before = parameters[:parameters.rindex("*")]
            found = re.findall(r"uint32_t (?:id|n|t|a|b|code)\b|uint64_t length\b|\*(?:room|out|stepper|handle|index)\b", before)
            letters = ("r" if "*" in letter else "l" if "64" in letter else "n" for letter in found)
            self.assertEqual("".join(letters), chaldoref._PARAMETERS[name])

    def test_features(self):
        codes = re.findall(r"define CHALDOREF_(\w+) UINT32_C\((0x\w+)\)", HEADER)
        self.assertEqual([(name.lower(), int(number, 16)) for name, number in codes],
                         [(code, int.from_bytes(code.encode(), "big")) for code in FEATURES])


class FragmentsOfFilms(unittest.TestCase):
    """Films of which some lies in fragments."""

    def test_none(self):
        for movie in (Movie(W), Movie.read("films/w.mov")):
            self.assertEqual(movie.fragments(), Fragments(False, False))

    def test_at_top_level(self):
        film = W + struct.pack(">I4s", 8, b"moof")
        self.assertEqual(Movie(film).fragments(), Fragments(False, True))
        self.assertEqual(Movie.read(io.BytesIO(film)).fragments(), Fragments(False, True))
        self.assertEqual(Moov.read(io.BytesIO(film)).fragments, 1)

    def test_announced(self):
        moov = Moov.read(io.BytesIO(W)).bytes
        extended = resized(moov + struct.pack(">I4s", 8, b"mvex"), [b"moov"], 8)
        self.assertEqual(Movie.of_moov(extended, 4096).fragments(), Fragments(True, False))


class LeavingOut(unittest.TestCase):
    """Films read with parts left out."""

    def test_a_track(self):
        moov = Moov.read(io.BytesIO(TWO_HOSES))
        whole = Movie.of_moov(moov.bytes, moov.length)
        second = moov.leaving_out(tracks=[1])
        movie = Movie.of_moov(second.bytes, second.length)
        self.assertEqual(movie.tracks(), whole.tracks()[1:])
        self.assertEqual(list(movie.samples(2)), list(whole.samples(2)))
        self.assertEqual((len(second.bytes), second.length), (len(moov.bytes), moov.length))
        self.assertEqual(Movie.of_moov(moov.leaving_out(tracks=[1, 2]).bytes, moov.length).tracks(), ())
        with self.assertRaises(Refused) as raised:
            moov.leaving_out(tracks=[1, 7])
        self.assertEqual(raised.exception.number, Refusal.NO_TRACK)

    def test_edits(self):
        film = Path("films/w-edits.mov").read_bytes()
        # The second edit ends past the samples.
        elst = body(film, b"elst")
        refused = changed(film, elst + 8 + 12, 121)
        with self.assertRaises(Refused) as raised:
            Movie(refused)
        self.assertEqual(raised.exception.number, Refusal.EDIT_LIST)
        moov = Moov.read(io.BytesIO(refused)).leaving_out(edits=True)
        movie = Movie.of_moov(moov.bytes, moov.length)
        self.assertEqual(movie.edits(1), ())
        self.assertEqual(list(movie.samples(1)), list(Movie(film).samples(1)))
        plain = Moov.read(io.BytesIO(W))
        self.assertEqual(plain.leaving_out(edits=True), plain)

    def test_any_bytes(self):
        moov = Moov.read(io.BytesIO(W))
        for end in range(len(moov.bytes)):
            cut = Moov(moov.bytes[:end], moov.length)
            cut.leaving_out(edits=True)
            with self.subTest(end):
                try:
                    cut.leaving_out(tracks=[1])
                except Refused as refused:
                    self.assertEqual(refused.number, Refusal.NO_TRACK)


if __name__ == "__main__":
    unittest.main()
