//! Words and bytes that a file may hold in the wrong place.

/// Words that are right in few places and wrong in most.
const WORDS: &str = "
    0 1 2 3 7 8 9 10 15 16 17 63 64 65 99 100 256 65536 4294967296 18446744073709551616 00 01 02 08 000 001 016 -0 -1 -2 +0 +1
    0.0 0.5 0.55 0.555 0.5555 0.50000 1. 1.0 1.00 1.000 1.0000 1.001 1.01 .5 . .. 1..0 1.0.0 9.999 10.0 0100 0,5 1e0 0x1
    5e-1 5.e-1 .5e0 .05e1 1.e0 1.e-3 1e-0 1e-3 1e3 0e-3 .0e3 .001e3 .11e1 9e-1 1.25e-1 .125e1 1.5e-3 10e-1 0.5000
    e1 .e1 -. e 1e 1e- 1e4 1e-4 1e00 1e-00 1e+0 1E0 1e0e0 1e.5 .5. 5e-1. -5e-1 -.5e1 -e1 12.5e1 -1e3 1001e0 2e3 1000e-3
    - --1 1- -.5 -0.5 -0.00 1000 1000.00 1000.01 -1000 -1000.00 -1000.01 1001 9999.99 10000 00001 0001 -0000
    * ** *0 0* : :: = ; / \\ \"0\" 0:0 T: T O R TT T0 T1 t o r Discount discount values reward Reward rewards cost
    states actions observations start uniform identity x";

/// No word, two words, comments, and words with bytes that cannot be printed.
const ODD_WORDS: &[&[u8]] = &[
    b"",
    b": :",
    b"0 0",
    b"1\t0",
    b"#",
    b"#c\n",
    b"#c\r",
    b"0#c\n",
    b"1#2",
    b"\0",
    b"0\0",
    b"\x0b",
    b"0\x0b",
    b"\x0c",
    b"1\x0c",
    b"\x7f",
    b"\x80",
    b"1\x80",
    b"\xa0",
    b"\xff",
    b"\xef\xbb",
];

/// All of these.
pub(super) fn wrong_words() -> Vec<&'static [u8]> {
    WORDS.split_whitespace().map(str::as_bytes).chain(ODD_WORDS.iter().copied()).collect()
}

/// Bytes of every kind.
pub(super) const BYTES: &[u8] = &[
    0, 1, 9, 10, 11, 12, 13, 31, 32, b'#', b'*', b':', b'-', b'+', b'.', b',', b'/', b'0', b'1', b'9', b';', b'A',
    b'T', b'O', b'R', b'd', 127, 128, 160, 255,
];
