"""Arrow arrays and streams in capsules: what they answer, what is refused, and that each structure is released once."""

import gc
import importlib.util
import os
import struct
import unittest
from types import SimpleNamespace

import arrow
import versions
from compiled import WithFolder, compiled
from test_calls import KINDS, USUAL, WANTED, key_of

CONTENT = [None if text is None else text.encode("utf-8", "surrogatepass") for text in USUAL]
KEYS = [None if kind is None else key_of(text) for text, kind in zip(USUAL, KINDS)]
STABILITIES = [None if kind is None else versions.Version(text).stability for text, kind in zip(USUAL, KINDS)]
# Each of them has itself as a tag.
VERSIONS = [None if kind is None else text for text, kind in zip(USUAL, KINDS)]
ANSWERS = KINDS, KEYS, WANTED, STABILITIES, VERSIONS, WANTED
CALLS = (
    *(versions.kinds, versions.sort_keys, lambda texts: versions.match_all(">=1.2,<1:0", texts)),
    *(versions.stabilities, versions.in_tags, versions.VersionSet(">=1.2, <1:0").has_all),
)
FORMATS = (b"u", b"U", b"z", b"Z")


class Arrow(unittest.TestCase):
    def setUp(self):
        arrow.made.clear()
        arrow.released.clear()

    def tearDown(self):
        gc.collect()
        self.assertEqual(sorted(arrow.released), sorted(arrow.made))

    def assertAnswers(self, texts, among=slice(None)):
        self.assertEqual([call(texts) for call in CALLS], [answers[among] for answers in ANSWERS])

    def assertFails(self, error, words, texts):
        for call in CALLS:
            before = len(arrow.made)
            self.assertRaisesRegex(error, words, call, texts)
            self.assertGreater(len(arrow.made), before)

    def test_formats(self):
        for format in FORMATS:
            with self.subTest(format=format):
                self.assertAnswers(arrow.Array(CONTENT, format))
                self.assertAnswers(arrow.Stream(arrow.Array(CONTENT, format), format=format))

    def test_slices(self):
        for format in (b"u", b"Z"):
            for first in range(len(USUAL) + 1):
                for length in range(len(USUAL) - first + 1):
                    among = slice(first, first + length)
                    self.assertAnswers(arrow.Array(CONTENT, format, first, length), among)

    def test_first_offset_above_0_and_an_odd_address(self):
        for format in FORMATS:
            self.assertAnswers(arrow.Array(CONTENT, format, front=b"1.2.3", pad=3))

    def test_more_than_one_byte_of_validity(self):
        texts = [None if n % 3 else b"1.%d" % n for n in range(100)]
        for first in range(20):
            wanted = [None if text is None else "general" for text in texts[first:]]
            self.assertEqual(versions.kinds(arrow.Array(texts, first=first)), wanted)

    def test_without_nulls_or_without_bytes(self):
        self.assertEqual(versions.kinds(arrow.Array([b"1.2", b"1.2.3"])), ["general", "ideal"])
        self.assertEqual(versions.kinds(arrow.Array([b"", b"", None][:2])), [None, None])
        self.assertEqual(versions.sort_keys(arrow.Array([b"", b""], b"u")), [None, None])

    def test_streams(self):
        chunks = arrow.Array(CONTENT[:3]), arrow.Array([]), arrow.Array(CONTENT, first=3)
        self.assertAnswers(arrow.Stream(*chunks))
        self.assertAnswers(arrow.Stream(), slice(0))

    def test_no_texts(self):
        for empty in (arrow.Array([]), arrow.Array([b"1"], first=1), arrow.Stream(), arrow.Stream(arrow.Array([]))):
            self.assertAnswers(empty, slice(0))
            with self.assertRaisesRegex(versions.InvalidRequirement, "not a requirement: '1.2'"):
                versions.match_all("1.2", empty)

    def test_an_array_comes_before_a_stream_and_a_stream_before_items(self):
        class Both(arrow.Stream, arrow.Array):
            def __iter__(self):
                return iter(["1_2"])

            __arrow_c_array__ = arrow.Array(["1.2.3".encode()]).__arrow_c_array__

        self.assertEqual(versions.kinds(Both(arrow.Array([b"1.2"]))), ["ideal"])
        Both.__arrow_c_array__ = None
        self.assertEqual(versions.kinds(Both(arrow.Array([b"1.2"]))), ["general"])
        Both.__arrow_c_stream__ = None
        self.assertEqual(versions.kinds(Both(arrow.Array([b"1.2"]))), ["complex"])

    def test_other_types(self):
        words = r"string, binary, large_string, .*, string_view or .* \(format u, z, U, Z, vu or vz\)"
        for format in (b"l", b"v", b"vuu", b"+vl", b"+s", b"+l", b"w:4", b"", b"uu"):
            for texts in (arrow.Array([b"1.2"], format), arrow.Stream(arrow.Array([b"1.2"], format), format=format)):
                self.assertFails(TypeError, words, texts)

    # Around the 12 bytes that a view has room for, and long.
    LONG = [b"1.2.3-rc.1+12", None, b"1.2.3-rc.1+1", b"1_" * 200 + b"1", b"1:" + b"2." * 100 + b"3", *CONTENT]

    def test_views(self):
        kinds = ["ideal", None, "ideal", "complex", "general", *KINDS]
        for format in (b"vu", b"vz"):
            for pad in (0, 3):
                views = arrow.Views(self.LONG, format, pad=pad)
                for texts in (views, arrow.Stream(arrow.Views([], format), views, format=format)):
                    self.assertEqual(versions.kinds(texts), kinds)
                    texts_of = [None if text is None else text.decode("utf-8", "surrogateescape") for text in self.LONG]
                    keys = [None if text is None else key_of(text) for text in texts_of]
                    self.assertEqual(versions.sort_keys(texts), keys)
                self.assertAnswers(arrow.Views(CONTENT, format, pad=pad))
        for first in range(len(self.LONG) + 1):
            for length in range(len(self.LONG) - first + 1):
                found = versions.kinds(arrow.Views(self.LONG, b"vu", first, length))
                self.assertEqual(found, kinds[first:first + length])
        self.assertEqual(versions.kinds(arrow.Views([b"1.2"] * 3)), ["general"] * 3)

    def test_views_that_are_wrong(self):
        size, largest = 13, 2**31 - 1
        for wrong in (
            *((-1, 0, 0), (-size, 0, 0), (size, -1, 0), (size, 2, 0), (size, 3, 0), (size, largest, 0), (size, 0, -1)),
            *((size, 0, 1), (size + 1, 0, 0), (size, 1, 0), (largest, 0, 0), (largest, 0, largest), (size, 0, largest)),
        ):
            views = arrow.Views([b"1.2", b"1.2.3-rc.1+12", None])
            views.parts[0], views.parts[1] = b"1.2.3-rc.1+12", b"9.9"
            views.lengths = struct.pack("=2q", 13, 3)
            views.views = views.views[:16] + struct.pack("=i4s2i", wrong[0], b"1.2.", *wrong[1:]) + views.views[32:]
            with self.subTest(wrong=wrong):
                self.assertFails(ValueError, "has a view that", views)
                self.assertFails(ValueError, "has a view that", arrow.Stream(views, format=b"vu"))
        for changed in ({"length": -1}, {"offset": -1}, {"n_buffers": 2}, {"n_buffers": 0}, {"length": 2**59}):
            with self.subTest(changed=changed):
                self.assertFails(ValueError, "length", arrow.Views([b"1.2"], **changed))
        for lacking in ("views", "lengths"):
            views = arrow.Views([b"1.2.3-rc.1+12"])
            setattr(views, lacking, None)
            self.assertFails(ValueError, "lacks its views" if lacking == "views" else "has a view that", views)
        views = arrow.Views([b"1.2.3-rc.1+12"])
        views.parts[0] = None
        self.assertFails(ValueError, "has a view that", views)

    def test_dictionaries(self):
        class Dictionary(arrow.Array):
            def __arrow_c_array__(self):
                inner = arrow.CSchema(format=b"u")
                return arrow.in_capsule(arrow.schema(b"u", inner)), arrow.in_capsule(self.c_array())

        self.assertFails(TypeError, "a dictionary", Dictionary([b"1.2"]))
        iterable = type("Iterable", (Dictionary,), {"__iter__": lambda self: iter(USUAL)})
        self.assertAnswers(iterable([b"1.2"]))

    def test_what_is_not_exported_is_iterated(self):
        def raising(error):
            def method(self):
                raise error
            return method

        def released(self):
            schema, array = arrow.Array([b"9.9"]).__arrow_c_array__()
            address = arrow.get_pointer(id(schema), b"arrow_schema")
            arrow.Release(arrow.CSchema.from_address(address).release)(address)
            return schema, array

        names = array, stream = "__arrow_c_array__", "__arrow_c_stream__"
        ways = [
            *((name, raising(error)) for name in names for error in (ImportError(), AttributeError("mine"), OSError())),
            *((name, property(raising(ValueError("mine")))) for name in names),
            *((name, lambda self, it=it: it) for name in names for it in (None, 5, (), (1, 2), "arrow_array")),
            *((name, 5) for name in names),
            *((array, lambda self, f=f: arrow.Array([b"9.9"], f).__arrow_c_array__()) for f in (b"l", b"+s", b"")),
            *((stream, lambda self, f=f: arrow.Stream(format=f).__arrow_c_stream__()) for f in (b"l", b"+s", b"")),
            (array, lambda self: arrow.Array([b"9.9"]).__arrow_c_array__()[::-1]),
            (array, released),
            (stream, lambda self: arrow.Stream(error_at=0).__arrow_c_stream__()),
        ]
        sequence = {"__getitem__": lambda self, n: USUAL[n], "__len__": lambda self: len(USUAL)}
        for name, way in ways:
            for items in ({"__iter__": lambda self: iter(USUAL)}, sequence):
                with self.subTest(name=name, way=way):
                    self.assertAnswers(type("Column", (), {name: way, **items})())
            # A list is iterated, too.
            self.assertAnswers(type("Listed", (list,), {name: way})(USUAL))

    def test_what_a_stream_has_handed_out_is_not_iterated_again(self):
        class Column(arrow.Stream):
            def __iter__(self):
                return iter(["1.2"])

        chunk, bad = arrow.Array([b"1.2"]), arrow.Array([b"1.2"], length=-1)
        for n in (1, 2, 3):
            self.assertFails(ValueError, "failed with 5: no more", Column(chunk, chunk, error_at=n))
        self.assertFails(ValueError, "length", Column(bad))
        self.assertFails(ValueError, "length", Column(chunk, bad))
        column = type("Column", (arrow.Array,), {"__iter__": Column.__iter__})
        self.assertFails(ValueError, "length", column([b"1.2"], length=-1))

    def test_what_iterating_raises_after_an_export_that_failed(self):
        mine, own = ImportError("mine"), OSError("own")
        own.__context__ = KeyError("its own")

        def column(iterate):
            def export(self):
                raise mine

            return type("Column", (), {"__arrow_c_stream__": export, "__iter__": iterate})()

        def raising(error):
            def iterate(self):
                raise error

            return iterate

        def midway(self):
            yield "1.2"
            raise OSError("midway")

        for call in CALLS:
            for iterate, words in (
                (lambda self: iter(["1.2", 5]), "a text is a str, and this is of type int: 5"),
                (midway, "midway"),
                (raising(OSError("at once")), "at once"),
            ):
                with self.assertRaisesRegex((TypeError, OSError), words) as raised:
                    call(column(iterate))
                self.assertIs(raised.exception.__context__, mine)
            with self.assertRaises(OSError) as raised:
                call(column(raising(own)))
            self.assertIsInstance(raised.exception.__context__, KeyError)
            # What can't be iterated raises why it isn't exported.
            for iterate in (None, lambda self: 5, raising(TypeError("no items")), raising(mine)):
                with self.assertRaises(ImportError) as raised:
                    call(column(iterate))
                self.assertIs(raised.exception, mine)
                self.assertIsNone(mine.__context__)

    def test_what_is_not_about_the_export_is_raised(self):
        for error in (MemoryError(), KeyboardInterrupt(), SystemExit(3)):
            for name in ("__arrow_c_array__", "__arrow_c_stream__"):
                def method(self):
                    raise error

                column = type("Column", (list,), {name: method})
                for call in CALLS:
                    self.assertRaises(type(error), call, column(["1.2"]))

    def test_bad_offsets(self):
        for format, code in ((b"u", "i"), (b"U", "q")):
            largest = 2**31 - 1 if format == b"u" else 2**63 - 1
            for offsets in ((3, 0), (-1, 3), (0, -1), (-3, -1), (largest, 0), (-largest - 1, 3)):
                array = arrow.Array([b"1.2"], format)
                array.offsets = struct.pack(f"=2{code}", *offsets)
                with self.subTest(offsets=offsets):
                    self.assertFails(ValueError, "offsets", array)
        array = arrow.Array([b"1.2", b"1.3", b"1.4"])
        array.offsets = struct.pack("=4q", 0, 7, 3, 9)
        self.assertFails(ValueError, "offsets", array)
        self.assertFails(ValueError, "offsets", arrow.Stream(arrow.Array([b"1.2"]), array))

    def test_bad_structures(self):
        wrong = ({"length": -1}, {"offset": -1}, {"n_buffers": 2}, {"n_buffers": 4}, {"length": 2**63 - 1})
        for changed in (*wrong, {"offset": 2**63 - 1}, {"length": 2**62, "offset": 2**62}):
            for format in (b"u", b"U"):
                with self.subTest(changed=changed):
                    self.assertFails(ValueError, "length", arrow.Array([b"1.2"], format, **changed))
        array = arrow.Array([b"1.2"])
        array.offsets = None
        self.assertFails(ValueError, "lacks its offsets", array)
        array = arrow.Array([b"1.2"])
        array.content = None
        self.assertFails(ValueError, "lacks its bytes", array)

    def test_streams_that_fail(self):
        chunk = arrow.Array([b"1.2"])
        for texts in (arrow.Stream(chunk, chunk, error_at=n) for n in range(4)):
            self.assertFails(ValueError, "failed with 5: no more", texts)
        self.assertFails(ValueError, "failed with 5: ", arrow.Stream(error_at=1, words=None))
        self.assertFails(ValueError, "failed with 5: ", arrow.Stream(error_at=1, words=b"\xff"))

    def test_released_capsules(self):
        for texts in (arrow.Array([b"1.2"]), arrow.Stream(arrow.Array([b"1.2"]))):
            name = "__arrow_c_array__" if isinstance(texts, arrow.Array) else "__arrow_c_stream__"
            capsules = getattr(texts, name)()

            class Again:
                pass

            setattr(Again, name, lambda self: capsules)
            self.assertEqual(versions.kinds(Again()), ["general"])
            for capsule in capsules if isinstance(capsules, tuple) else (capsules,):
                kind = arrow.CSchema if "schema" in repr(capsule) else arrow.CArray
                kind = arrow.CStream if "stream" in repr(capsule) else kind
                address = arrow.get_pointer(id(capsule), arrow.NAMES[kind])
                arrow.Release(kind.from_address(address).release)(address)
                self.assertRaisesRegex(ValueError, "released already", versions.kinds, Again())
            del capsules, capsule
            Again.__dict__

    def test_what_is_not_capsules(self):
        for returned in (None, 5, (), (1, 2), ("arrow_schema", "arrow_array", 3), []):
            for name in ("__arrow_c_array__", "__arrow_c_stream__"):
                other = type("Other", (), {name: lambda self: returned})
                with self.subTest(name=name, returned=returned):
                    self.assertRaises((TypeError, ValueError), versions.kinds, other())
        crossed = type("Crossed", (), {"__arrow_c_array__": lambda self: arrow.Array([b"1"]).__arrow_c_array__()[::-1]})
        self.assertRaises(ValueError, versions.kinds, crossed())

    def test_what_a_producer_raises(self):
        class Raising:
            def __arrow_c_array__(self):
                raise AttributeError("mine")

        class Refusing:
            @property
            def __arrow_c_stream__(self):
                raise OSError("mine")

        self.assertRaisesRegex(AttributeError, "mine", versions.kinds, Raising())
        self.assertRaisesRegex(OSError, "mine", versions.kinds, Refusing())

    def test_sorted_newest_and_filter_take_no_arrays(self):
        filters = versions.Requirement("*").filter, versions.VersionSet("*").filter
        for call in (versions.sorted, versions.newest, *filters):
            self.assertRaises(TypeError, call, arrow.Array([b"1.2"]))


class FromC(WithFolder):
    """Texts of producer.c: "1.2.3", null, "x y" and "1.10"."""

    ANSWERS = [
        ["ideal", None, None, "general"],
        [key_of("1.2.3"), None, None, key_of("1.10")],
        [True, None, None, True],
        [versions.Stability.STABLE, None, None, versions.Stability.STABLE],
        ["1.2.3", None, None, "1.10"],
        [True, None, None, True],
    ]

    @classmethod
    def setUpClass(cls):
        super().setUpClass()
        source = os.path.join(os.path.dirname(os.path.abspath(__file__)), "producer.c")
        spec = importlib.util.spec_from_file_location("producer", compiled(cls.folder, "producer.so", source))
        cls.producer = importlib.util.module_from_spec(spec)
        spec.loader.exec_module(cls.producer)

    def tearDown(self):
        gc.collect()
        self.assertEqual(self.producer.alive(), 0)

    def test_an_array(self):
        texts = SimpleNamespace(__arrow_c_array__=self.producer.array)
        self.assertEqual([call(texts) for call in CALLS], self.ANSWERS)

    def test_a_stream(self):
        for chunks in range(4):
            texts = SimpleNamespace(__arrow_c_stream__=lambda: self.producer.stream(chunks))
            self.assertEqual([call(texts) for call in CALLS], [chunks * answers for answers in self.ANSWERS])

    def test_what_is_not_read_is_released(self):
        for capsules in (self.producer.array(), self.producer.stream(2)):
            self.assertGreater(self.producer.alive(), 0)
            del capsules
