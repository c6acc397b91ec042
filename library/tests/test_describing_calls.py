"""The calls that describe quotients, as they are built: of bytes and of what is opened, in each form and for each output."""

from __future__ import annotations

import ctypes
import unittest
from typing import NamedTuple

from misere._library import Opened
from tests import samples
from tests.raw_calls import UNCOUNTED, UNTOLD, called, text

LIMIT = 100_000
OF_0_3, OF_0_75 = ((samples / f"{it}.mqc").read_bytes() for it in ("0.3", "0.75"))
# Its table is no monoid: the identity and 1 make the identity
LAWLESS = (
    b"mqc 1\ncode 0.3\norder 2\nstart 1\nperiod 2\nphi 1 0\nportion 1\nwords 0:1\nrow 0 0\nrow 1 0\napart 0\nend\n"
)
# As many outputs and forms are tried: the last of each is none
OUTPUTS, FORMS = 7, 3
ROOM = 1 << 17


class Description(NamedTuple):
    """A certificate; the limit, the output and the form; the status, and how what is told begins."""

    name: str
    certificate: bytes
    asked: tuple[int, int, int]
    status: int
    beginning: str = ""


DESCRIPTIONS = [
    Description(
        "plain",
        OF_0_75,
        (LIMIT, 0, 0),
        0,
        "Q(0.75) = < a,b,c | a^2=1, bc=ab, c^2=b^2 >\nP = { a, b^2 }\norder 8 portion 2 wild\n",
    ),
    Description(
        "plain, by the basis",
        OF_0_75,
        (LIMIT, 0, 1),
        0,
        "Q(0.75) = < a,b,c | a^2=1, b^3=b, bc=ab, c^2=b^2 >\nP = { a, b^2 }\norder 8 portion 2 wild\n",
    ),
    Description(
        "LaTeX",
        OF_0_75,
        (LIMIT, 1, 0),
        0,
        "\\begin{flushleft}\n$\\mathcal{Q}(\\mathbf{0.75})=\\langle a,b,c\\mid a^{2}=1$, $bc=ab$, ",
    ),
    Description("relations", OF_0_75, (LIMIT, 2, 0), 0, "a^2=1 bc=ab c^2=b^2 b^3=b c^4=c^2"),
    Description("relations, by the basis", OF_0_75, (LIMIT, 2, 1), 0, "a^2=1 b^3=b bc=ab c^2=b^2 c^4=c^2"),
    Description("no such output", OF_0_75, (LIMIT, 6, 0), 15),
    Description("no such form", OF_0_75, (LIMIT, 0, 2), 15),
    Description("a limit that is met", OF_0_75, (1, 0, 0), 8),
    Description("no monoid", LAWLESS, (LIMIT, 0, 0), 2),
]


class Room(NamedTuple):
    """A description under the limit 100, with so much room; the status, how what is told begins, and its length."""

    name: str
    certificate: bytes
    output: int
    form: int
    room: int
    status: int
    beginning: str = ""
    length: int | None = None


ROOMS = [
    Room("a description", OF_0_3, 0, 0, 400, 0, "Q"),
    Room("a relation", OF_0_3, 2, 1, 400, 0, "a", 5),
    Room("no such output", OF_0_3, 6, 0, 400, 15),
    Room("no such form", OF_0_3, 0, 2, 400, 15),
    Room("no text", b"", 0, 0, 400, 1),
    Room("no room", OF_0_3, 0, 0, 5, 14),
]


class Formed(NamedTuple):
    """An output and a form of Kayles to the heap 27; how what is told begins, and how it ends. If there is no end, it is all
    that is told."""

    name: str
    output: int
    form: int
    beginning: str
    end: str


OF_KAYLES = [
    Formed(
        "plain, by the short list",
        0,
        0,
        "Q_27(0.77) = < a,b,c,d,e,f,g | a^2=1, c^3=c, cd=b^2, d^3=d, ce=b^2, e^2=de, bf=ab, d^2f=f, f^2=b^2, "
        "fg=ag, g^2=b^2 >\n"
        "P_27 = { a, d, e, ac, b^2, ac^2, ad^2, ade, adf }\n"
        "order 40 portion 9 wild\n"
        "generators a=1 b=2 c=5 d=9 e=12 f=25 g=27\n",
        "\nheaps to 27\n",
    ),
    Formed(
        "LaTeX, by the short list",
        1,
        0,
        "\\begin{flushleft}\n"
        "$\\mathcal{Q}_{27}(\\mathbf{0.77})=\\langle a,b,c,d,e,f,g\\mid a^{2}=1$, $c^{3}=c$, $cd=b^{2}$, "
        "$d^{3}=d$, $ce=b^{2}$, $e^{2}=de$, $bf=ab$, $d^{2}f=f$, $f^{2}=b^{2}$, $fg=ag$, "
        "$g^{2}=b^{2}\\rangle$\\\\\n",
        "\\noindent heaps to $27$\n",
    ),
    Formed(
        "relations, by the short list",
        2,
        0,
        "a^2=1 c^3=c cd=b^2 d^3=d ce=b^2 e^2=de bf=ab d^2f=f f^2=b^2 fg=ag g^2=b^2 b^3=b e^4=e^2 f^4=f^2 g^3=g",
        "",
    ),
    Formed(
        "plain, by the basis",
        0,
        1,
        "Q_27(0.77) = < a,b,c,d,e,f,g | a^2=1, b^3=b, b^2c=acf, bc^2=b, c^3=c, bd=bc, cd=b^2, d^3=d, be=bc, "
        "ce=b^2, e^2=de, bf=ab, c^2f=ab^2, d^2f=f, f^2=b^2, b^2g=g, c^2g=g, dg=cg, eg=cg, fg=ag, g^2=b^2 >\n"
        "P_27 = { a, d, e, ac, b^2, ac^2, ad^2, ade, adf }\n"
        "order 40 portion 9 wild\n"
        "generators a=1 b=2 c=5 d=9 e=12 f=25 g=27\n",
        "\nheaps to 27\n",
    ),
    Formed(
        "LaTeX, by the basis",
        1,
        1,
        "\\begin{flushleft}\n"
        "$\\mathcal{Q}_{27}(\\mathbf{0.77})=\\langle a,b,c,d,e,f,g\\mid a^{2}=1$, $b^{3}=b$, $b^{2}c=acf$, "
        "$bc^{2}=b$, $c^{3}=c$, $bd=bc$, $cd=b^{2}$, $d^{3}=d$, $be=bc$, $ce=b^{2}$, $e^{2}=de$, $bf=ab$, "
        "$c^{2}f=ab^{2}$, $d^{2}f=f$, $f^{2}=b^{2}$, $b^{2}g=g$, $c^{2}g=g$, $dg=cg$, $eg=cg$, $fg=ag$, "
        "$g^{2}=b^{2}\\rangle$\\\\\n",
        "\\noindent heaps to $27$\n",
    ),
    Formed(
        "relations, by the basis",
        2,
        1,
        "a^2=1 b^3=b b^2c=acf bc^2=b c^3=c bd=bc cd=b^2 d^3=d be=bc ce=b^2 e^2=de bf=ab c^2f=ab^2 d^2f=f f^2=b^2 "
        "b^2g=g c^2g=g dg=cg eg=cg fg=ag g^2=b^2 e^4=e^2 f^4=f^2 g^3=g",
        "",
    ),
    Formed(
        "JSON, by the short list",
        3,
        0,
        '{"code":"0.77","kind":"partial","relations":[["a^2","1"],["c^3","c"],["cd","b^2"],["d^3","d"],["ce",'
        '"b^2"],["e^2","de"],["bf","ab"],["d^2f","f"],["f^2","b^2"],["fg","ag"],["g^2","b^2"]],"portion":["a",'
        '"d","e","ac","b^2","ac^2","ad^2","ade","adf"],"order":40,"tame":null,"generators":{"a":1,"b":2,"c":5,'
        '"d":9,"e":12,"f":25,"g":27},',
        ',"start":28,"period":0}\n',
    ),
    Formed(
        "Singular, by the short list",
        4,
        0,
        "// Q_27(0.77), of order 40: vdim(std(I))\n"
        "ring R = 0,(g,f,e,d,c,b,a),dp;\nideal I =\n  a^2-1,\n  c^3-c,\n  c*d-b^2,\n  d^3-d,\n  c*e-b^2,\n"
        "  e^2-d*e,\n  b*f-a*b,\n  d^2*f-f,\n  f^2-b^2,\n  f*g-a*g,\n  g^2-b^2;\n",
        "",
    ),
    Formed(
        "Singular, by the basis",
        4,
        1,
        "// Q_27(0.77), of order 40: vdim(std(I))\n"
        "ring R = 0,(g,f,e,d,c,b,a),dp;\nideal I =\n  a^2-1,\n  b^3-b,\n  b^2*c-a*c*f,\n  b*c^2-b,\n  c^3-c,\n"
        "  b*d-b*c,\n  c*d-b^2,\n  d^3-d,\n  b*e-b*c,\n  c*e-b^2,\n  e^2-d*e,\n  b*f-a*b,\n  c^2*f-a*b^2,\n"
        "  d^2*f-f,\n  f^2-b^2,\n  b^2*g-g,\n  c^2*g-g,\n  d*g-c*g,\n  e*g-c*g,\n  f*g-a*g,\n  g^2-b^2;\n",
        "",
    ),
    Formed(
        "GAP, by the short list",
        5,
        0,
        "# Q_27(0.77), of order 40: ReducedGroebnerBasis(I, O)\n" 'g := Indeterminate(Rationals, "g" : new);;\n',
        "I := [\n  a^2-1,\n  c^3-c,\n  c*d-b^2,\n  d^3-d,\n  c*e-b^2,\n  e^2-d*e,\n  b*f-a*b,\n  d^2*f-f,\n"
        "  f^2-b^2,\n  f*g-a*g,\n  g^2-b^2];;\n"
        "O := MonomialGrevlexOrdering(g,f,e,d,c,b,a);;\n",
    ),
    Formed(
        "GAP, by the basis",
        5,
        1,
        "# Q_27(0.77), of order 40: ReducedGroebnerBasis(I, O)\n" 'g := Indeterminate(Rationals, "g" : new);;\n',
        "  b^2*g-g,\n  c^2*g-g,\n  d*g-c*g,\n  e*g-c*g,\n  f*g-a*g,\n  g^2-b^2];;\n"
        "O := MonomialGrevlexOrdering(g,f,e,d,c,b,a);;\n",
    ),
]


class Begun(NamedTuple):
    """An output and a form of a part of 304 elements; the status, and how what is told begins."""

    name: str
    output: int
    form: int
    status: int
    beginning: str


# Its relations have no table within the box of `present`
OF_304 = [
    Begun("plain", 0, 0, 0, "Q_16(0.6) = < a,"),
    Begun("plain, by the basis", 0, 1, 0, "Q_16(0.6) = < a,"),
    Begun("LaTeX", 1, 0, 0, "\\begin{flushleft}\n$\\mathcal{Q}_{16}(\\mathbf{0.6})=\\langle a,"),
    Begun("LaTeX, by the basis", 1, 1, 0, "\\begin{flushleft}\n$\\mathcal{Q}_{16}(\\mathbf{0.6})=\\langle a,"),
    Begun("relations", 2, 0, 16, ""),
    Begun("relations, by the basis", 2, 1, 16, ""),
    Begun("JSON", 3, 0, 0, '{"code":"0.6","kind":"partial","relations":[['),
    Begun("JSON, by the basis", 3, 1, 0, '{"code":"0.6","kind":"partial","relations":[['),
    Begun("Singular, by the basis", 4, 1, 0, "// Q_16(0.6), of order 304: vdim(std(I))\nring R = 0,("),
    Begun("GAP, by the basis", 5, 1, 0, "# Q_16(0.6), of order 304: ReducedGroebnerBasis(I, O)\n"),
]


def found_part(code: bytes, last: int) -> bytes:
    """The certificate of the part up to this heap that is found."""
    told, count = text(1 << 20), ctypes.c_uint64()
    if status := called("misere_solve", code, LIMIT, 64, 1, last, 512, told, count):
        raise AssertionError(f"nothing was found: {status}")
    return bytes(told)[: count.value]


def opened(certificate: bytes) -> Opened:
    owner = Opened()
    if status := called("misere_open", certificate, LIMIT, owner):
        raise AssertionError(f"nothing was opened: {status}")
    return owner


def described(certificate: bytes, limit: int, output: int, form: int, room: int = ROOM) -> tuple[int, int, bytes]:
    """The status, the length, and what the room holds."""
    told, count = text(room), ctypes.c_uint64(UNCOUNTED)
    status = called("misere_describe", certificate, limit, output, form, told, count)
    return status, count.value, bytes(told)


def described_opened(owner: Opened, output: int, form: int, room: int = ROOM) -> tuple[int, int, bytes]:
    """The same of what is opened."""
    told, count = text(room), ctypes.c_uint64(UNCOUNTED)
    status = called("misere_opened_describe", owner, output, form, told, count)
    return status, count.value, bytes(told)


class Describing(unittest.TestCase):
    def look_at(self, row: Description | Room, made: tuple[int, int, bytes]) -> None:
        status, length, told = made
        self.assertEqual((status, told[: len(row.beginning)]), (row.status, row.beginning.encode()))
        # (14 tells a length alone)
        self.assertEqual(length == UNCOUNTED, status not in (0, 14))
        self.assertEqual(set(told[0 if status else length :]), {UNTOLD})

    def test_descriptions_keep_within_what_is_asked(self) -> None:
        for row in DESCRIPTIONS:
            with self.subTest(row.name):
                self.look_at(row, described(row.certificate, *row.asked, room=2000))

    def test_quotients_are_described(self) -> None:
        for row in ROOMS:
            with self.subTest(row.name):
                made = described(row.certificate, 100, row.output, row.form, row.room)
                self.look_at(row, made)
                self.assertIn(row.length, (None, made[1]))

    def look_at_opened(self, certificate: bytes) -> None:
        """Each output, each in three forms, is told of what is opened as of the bytes."""
        owner = opened(certificate)
        for output in range(OUTPUTS):
            for form in range(FORMS):
                with self.subTest(f"output {output}, form {form}"):
                    made = described(certificate, LIMIT, output, form)
                    self.assertEqual(described_opened(owner, output, form), made)
                    self.assertEqual(made[0] == 15, output == OUTPUTS - 1 or form == FORMS - 1)
        self.assertEqual(called("misere_close", owner), 0)

    def test_opened_quotients_are_described_as_their_bytes(self) -> None:
        self.look_at_opened(OF_0_75)

    def test_what_has_no_room_tells_its_length(self) -> None:
        owner = opened(OF_0_75)
        self.assertEqual(described_opened(owner, 2, 0, 5), (14, 33, bytes([UNTOLD]) * 5))
        self.assertEqual(called("misere_close", owner), 0)

    def test_what_is_closed_is_not_described(self) -> None:
        for output, form in ((0, 0), (6, 2)):
            with self.subTest(f"output {output}, form {form}"):
                made = described_opened(Opened(), output, form, 5)
                self.assertEqual(made, (17, UNCOUNTED, bytes([UNTOLD]) * 5))

    def test_kayles_is_described_in_each_form(self) -> None:
        certificate = found_part(b"0.77", 27)
        for row in OF_KAYLES:
            with self.subTest(row.name):
                status, length, room = described(certificate, LIMIT, row.output, row.form)
                told = room[:length].decode()
                self.assertEqual((status, told[: len(row.beginning)]), (0, row.beginning))
                self.assertEqual(told[-len(row.end) :] if row.end else told[len(row.beginning) :], row.end)
        self.look_at_opened(certificate)

    def test_many_elements_are_described(self) -> None:
        certificate = found_part(b"0.6", 16)
        owner = opened(certificate)
        for row in OF_304:
            with self.subTest(row.name):
                made = described(certificate, LIMIT, row.output, row.form)
                self.assertEqual((made[0], made[2][: len(row.beginning)]), (row.status, row.beginning.encode()))
                self.assertEqual(described_opened(owner, row.output, row.form), made)
        self.assertEqual(called("misere_close", owner), 0)
