//! The pieces of which telling inputs are made.
use crate::inputs::Alphabet;

/// Pieces that matter to names.
#[rustfmt::skip]
pub const NAME_PIECES: &[&[u8]] = &[
    b".", b"/", b"@", b"{", b"*", b"-", b"a", b" ", b"..", b"//", b"@{", b".lock", b".lock/", b"/.", b"./", b".l",
    b"ock", b"A", b"_", b"\0", b"\x1F", b"\x7F", b"\\", b"^", b":", b"[", b"?", b"~", b"]", b"}", b"refs/heads/",
    b"refs/heads/-", b"HEAD", b"\x80", b"\xC3\xA9", b"\xFF",
];

/// Names that are allowed or nearly so.
#[rustfmt::skip]
pub const GOOD_NAMES: &[&[u8]] = &[
    b"main", b"v1.0", b"HEAD", b"FETCH_HEAD", b"refs/heads/main", b"refs/tags/v1.2.3", b"refs/heads/feature/a-b_c",
    b"refs/remotes/origin/HEAD", b"refs/heads/HEAD", b"refs/heads/-x", b"refs/heads/-", b"refs/heads/@",
    b"refs/stash", b"@", b"a@b", b"@/a", b"a.lock", b"a.lock/b", b".lock", b"a.lock.lock", b"a/.lock", b"a.b.c/d",
    b"-", b"a/b/c/d/e/f", b"na\xC3\xAFve/\xE2\x82\xAC", b"a.lockx", b"lock", b"x/lock", b"a.loc/k", b"\xFF\xFE",
];

/// Short strings of names, all of them.
pub const NAMES: &[Alphabet] = &[
    Alphabet { start: b"", pieces: &[b".", b"/", b"@", b"{", b"*", b"-", b"a", b"l", b"o", b"c", b"k", b" "], most: 6 },
    Alphabet { start: b"", pieces: &[b".lock", b".", b"/", b"@", b"{", b"a", b"*", b" "], most: 7 },
    Alphabet { start: b"", pieces: &[b".", b"l", b"o", b"c", b"k", b"/"], most: 8 },
    Alphabet {
        start: b"",
        pieces: &[b"refs/heads/", b"HEAD", b"refs/", b"heads", b"-", b"@", b"/", b"A", b".", b"~"],
        most: 6,
    },
    Alphabet { start: b"refs/heads/", pieces: &[b"-", b"HEAD", b"@", b"/", b".", b"a", b"{", b".lock"], most: 6 },
    Alphabet { start: b"", pieces: &[b"A", b"Z", b"_", b"a", b"z", b"@", b"[", b"`", b"/", b"0"], most: 6 },
];

/// Pieces that matter to components.
#[rustfmt::skip]
pub const COMPONENT_PIECES: &[&[u8]] = &[
    b".", b"..", b" ", b":", b"/", b"\\", b".git", b".GIT", b"git", b"git~1", b"modules", b".gitmodules", b"gitmod",
    b"gitmod~1", b"~", b"~1", b"0", b"1", b"4", b"5", b"9", b"gi7eba", b"gi7e", b"gi", b"con", b"CON", b"in$",
    b"out$", b"aux", b"nul", b"prn", b"com", b"lpt", b"LPT", b"$", b"<", b">", b"\"", b"|", b"?", b"*", b"\x1F",
    b"\0", b"\xE2\x80\x8C", b"\xE2\x80\x8F", b"\xE2\x80\xAA", b"\xE2\x80\xAE", b"\xE2\x81\xAA", b"\xE2\x81\xAF",
    b"\xEF\xBB\xBF", b"\xE2\x80", b"\xE2", b"\xF0\x80", b"\xF0\x90\x80", b"\xED\xA0", b"\x80", b"\xC3\xA9", b"a",
];

/// Components that are refused, stand for another, or are harmless.
#[rustfmt::skip]
pub const GOOD_COMPONENTS: &[&[u8]] = &[
    b".git", b".gitmodules", b"git~1", b"gitmod~1", b"gitmod~2", b"gitmod~4", b"gi7eba~1", b"gi7eb~10", b"gi7e~100",
    b"gi7~1000", b"gi~10000", b"g~100000", b"~1000000", b"~9999999", b"aux", b"nul", b"prn", b"con", b"conin$",
    b"conout$", b"com0", b"com1", b"com9", b"lpt0", b"lpt1", b"lpt9", b".git::$INDEX_ALLOCATION", b".git...",
    b".git . :x", b"git~1 .:", b"gi7eba~1. :x", b"con .txt", b"lpt1:", b"aux.h", b"nul  ", b"README.md", b"C:x",
    b"\xC3\xA9:", b"\xE2\x82:", b"\xF0\x80:", b"src", b".g\xE2\x80\x8Cit", b"\xEF\xBB\xBF.git",
    b".gitmodules\xE2\x80\x8D", b"a b", b"na\xC3\xAFve.txt", b".", b"..", b"...", b".gitignore",
];

/// What follows a name that stands for another.
const AFTER: &[&[u8]] = &[b" ", b".", b":", b"a", b"0", b"1", b"\\", b"/", b"$"];
const DIGITS: &[&[u8]] = &[b"~", b"0", b"1", b"9", b"a", b"."];

/// Short components, all of them.
pub const COMPONENTS: &[Alphabet] = &[
    Alphabet { start: b"", pieces: &[b".", b"g", b"G", b"i", b"t", b"T", b"~", b"1", b":", b" "], most: 6 },
    Alphabet {
        start: b"",
        pieces: &[
            b".git",
            b"git~1",
            b"modules",
            b"gitmod",
            b"~",
            b"1",
            b"4",
            b"5",
            b":",
            b" ",
            b".",
            b"\\",
            b"/",
            b"\xE2\x80\x8C",
            b"\xE2\x80",
            b"\xEF\xBB\xBF",
        ],
        most: 5,
    },
    Alphabet { start: b"", pieces: DIGITS, most: 8 },
    Alphabet { start: b"g", pieces: DIGITS, most: 7 },
    Alphabet { start: b"gi", pieces: DIGITS, most: 7 },
    Alphabet { start: b"gi7", pieces: DIGITS, most: 6 },
    Alphabet { start: b"gi7e", pieces: DIGITS, most: 6 },
    Alphabet { start: b"gi7eb", pieces: DIGITS, most: 5 },
    Alphabet { start: b"gi7eba", pieces: DIGITS, most: 5 },
    Alphabet { start: b"gitmod", pieces: &[b"~", b"0", b"1", b"4", b"5", b" ", b".", b":"], most: 5 },
    Alphabet { start: b".git", pieces: AFTER, most: 4 },
    Alphabet { start: b"git~1", pieces: AFTER, most: 4 },
    Alphabet { start: b".gitmodules", pieces: AFTER, most: 4 },
    Alphabet { start: b"GI7EBA~1", pieces: AFTER, most: 4 },
    Alphabet { start: b"~1234567", pieces: AFTER, most: 4 },
    Alphabet {
        start: b"",
        pieces: &[
            b".",
            b"g",
            b"I",
            b"t",
            b"\xE2\x80\x8C",
            b"\xE2\x80\x8F",
            b"\xE2\x80\xAA",
            b"\xE2\x80\xAE",
            b"\xE2\x81\xAA",
            b"\xE2\x81\xAF",
            b"\xEF\xBB\xBF",
            b"\xE2\x80\x8B",
            b"\xE2\x80",
            b"\x8C",
        ],
        most: 5,
    },
    Alphabet {
        start: b"",
        pieces: &[
            b"con", b"in$", b"out$", b"aux", b"nul", b"prn", b"com", b"lpt", b"0", b"1", b"9", b" ", b".", b":", b"a",
        ],
        most: 5,
    },
    Alphabet { start: b"con", pieces: &[b"i", b"n", b"o", b"u", b"t", b"$", b" ", b".", b":"], most: 5 },
    Alphabet { start: b"", pieces: EDGES, most: 4 },
    Alphabet { start: b"", pieces: FEW_EDGES, most: 5 },
];

/// Bytes at the edges of the ranges of Table 3-7.
pub const EDGES: &[&[u8]] = &[
    b":", b"a", b".", b"\x7F", b"\x80", b"\x8F", b"\x90", b"\x9F", b"\xA0", b"\xBF", b"\xC0", b"\xC1", b"\xC2",
    b"\xDF", b"\xE0", b"\xE1", b"\xEC", b"\xED", b"\xEE", b"\xEF", b"\xF0", b"\xF1", b"\xF3", b"\xF4", b"\xF5",
    b"\xFF",
];
pub const FEW_EDGES: &[&[u8]] = &[
    b":", b"\x80", b"\x8F", b"\x90", b"\x9F", b"\xA0", b"\xBF", b"\xC1", b"\xC2", b"\xE0", b"\xED", b"\xF0", b"\xF4",
    b"\xF5",
];
