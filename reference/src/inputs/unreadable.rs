//! Lines that don't read as a call, among lines that do.

/// Each group: a readable line, then lines that are like it and are refused.
/// Nothing is created but by the readable lines.
#[rustfmt::skip]
const GROUPS: [(&str, &[&[u8]]); 17] = [
    // Letters.
    (
        "CUN 1",
        &[
            b"cun 2", b"Cun 2", b"CUn 2", b"CU 2", b"C 2", b"CUNN 2", b"CUX 2", b"2", b"CUN2",
            b"45 2", b"NUC 2", b"U 2", b"= 2", b"R 11",
        ],
    ),
    ("XUN 1", &[b"VAP 1 5 1", b"VAP 1 5 1 U", b"VAP", b"DOGS 1", b"SOGG 1 5", b"VAN 1"]),
    // Blanks and other white space.
    (
        "CUN 2",
        &[
            b"", b" ", b"  ", b" CUN 3", b"CUN  3", b"CUN 3 ", b"CUN 3  ", b"CUN ", b"CUN 3  U",
            b"CUN\t3", b"CUN 3\t", b"\tCUN 3", b"CUN \t3", b"CUN 3\r", b"\r", b"\t",
            b"CUN\x0b3", b"CUN\x0c3", b"CUN\xa03", b"CUN\xc2\xa03", b"CUN 3\x0b",
        ],
    ),
    // Numbers.
    (
        "CUN 10",
        &[
            b"CUN 010", b"CUN 00", b"CUN 03", b"CUN 000", b"CUN +3", b"CUN -3", b"CUN -0",
            b"CUN 3.", b"CUN 3.0", b"CUN 0x3", b"CUN 3e0", b"CUN 3,0", b"CUN 3_0", b"CUN 1 03",
            b"CUN A", b"CUN three", b"CUN /", b"CUN 3/", b"CUN :", b"CUN 3:", b"CUN 0:3",
            b"CUN \xb2", b"CUN \xef\xbc\x93", b"CUN 'A'",
        ],
    ),
    // Names past 65,535; some would be 0 or 1 if cut.
    (
        "CUN 65535",
        &[
            b"CUN 65536", b"CUN 65537", b"CUN 65538", b"CUN 65545", b"CUN 70000", b"CUN 99999",
            b"CUN 100000", b"CUN 655350", b"CUN 131073", b"CUN 4294967295", b"CUN 4294967296",
            b"CUN 4294967297", b"CUN 18446744073709551615", b"CUN 18446744073709551616",
            b"CUN 18446744073709551617", b"CUN 340282366920938463463374607431768211457",
            b"CUN 1000000000000000000000000000000000000003",
            b"CUN 9999999999999999999999999999999999999999", b"CUN 1 65536", b"SUN 65536",
            b"SUS 65537", b"CUS 65536", b"COP 1 65537 2", b"COP 1 5 65538",
        ],
    ),
    // Values past 4,294,967,295.
    (
        "BUN 1 4294967295",
        &[
            b"BUN 1 4294967296", b"BUN 1 4294967297", b"BUN 1 4294967300", b"BUN 1 5000000000",
            b"BUN 1 9999999999", b"BUN 1 10000000000", b"BUN 1 42949672950",
            b"BUN 1 18446744073709551616", b"BUN 1 18446744073709551617",
            b"BUN 1 340282366920938463463374607431768211456",
            b"BUN 1 9999999999999999999999999999999999999999", b"BUN 1 04294967295",
            b"BUN 1 00", b"BUN 1 -1", b"BUN 1 +1", b"BUN 1 NIL", b"BUN 1 U", b"BUN 1 T",
            b"BUS U 4294967296", b"BUS U NIL",
        ],
    ),
    ("VUN 1", &[b"VUN U", b"VUN u", b"VUN", b"VUN 1 1 1", b"VUN 1 u"]),
    // U where no space stands, and what is not U.
    (
        "COP 1 5 2 U",
        &[
            b"COP U 5 2", b"COP 1 U 2", b"COP 1 5 U", b"COP U U U", b"COP 1 6 2 u",
            b"COP 1 6 2 UU", b"COP 1 6 2 U1", b"COP 1 6 2 1U", b"COP 1 6 2 UNIVERSE",
            b"COP 1 6 2 0U", b"COP 1 6 2 NIL", b"CUN U", b"CUN U U", b"SUS U", b"SOGN 1 U",
            b"DOGG 1 U",
        ],
    ),
    // Too few arguments and too many.
    (
        "BOP 1 5 2 60",
        &[
            b"BOP", b"BOP 1", b"BOP 1 5", b"BOP 1 5 2", b"BOP 1 5 2 61 U U",
            b"BOP 1 5 2 61 U 1", b"BOP 1 5 2 61 1 1", b"COP 1 6", b"COP 1", b"COP",
            b"COP 1 6 2 U 1", b"VOP 1 5", b"XAP 1 5", b"DOP 1 5", b"DOP 1 5 2 U U",
        ],
    ),
    ("VOP 1 5 2", &[b"SOP", b"SOP 1 U U", b"SOGN 1", b"SOGN 1 2 U U", b"SANG 1", b"SANG 1 5 U 5"]),
    ("SOP 1", &[b"DOG", b"DOGG 1", b"DOGN 1", b"DONG 1", b"DAN", b"DANG 1 5 U U", b"DON 1 U 1"]),
    ("SUN", &[b"SUN U U", b"SUN 1 2", b"XUN", b"DUN", b"DUN 1 U 2", b"BUN 1", b"BUN 1 2 U U"]),
    // 51 to 55 have no space that may be missing.
    (
        "CUS 9",
        &[
            b"CUS", b"CUS 8 8", b"CUS 8 U", b"BUS", b"BUS 9", b"BUS U", b"BUS 9 1 1", b"VUS",
            b"VUS 9 U", b"XUS", b"XUS 9 9", b"DUS", b"DUS 9 9", b"CUS 08", b"CUS u",
        ],
    ),
    ("SUS", &[b"SUS ", b"SUS 1 2", b"SUS 1 U", b"SUS 01", b"SUS -1", b"sus", b"SUSS"]),
    // NUL and high bytes.
    (
        "CUN 7",
        &[
            b"\0", b"CUN 8\0", b"CUN\x008", b"CUN \0", b"CUN \x008", b"\0CUN 8", b"CUN 8 \0",
            b"CUN\0 8", b"\xff", b"CUN 8\xff", b"CUN \xff8", b"\xffCUN 8", b"C\xd5N 8",
            b"\xc3UN 8", b"CUN 8\x80", b"CUN \xb8", b"\xef\xbb\xbfCUN 8", b"CUN 8\x7f",
            b"CUN 8\x1a", b"\x04",
        ],
    ),
    // Values that a line could be taken for.
    ("BUN 7 0", &[b"BUN 7 1 ", b"BUN 7  1", b" BUN 7 1", b"BUN 7 1\r", b"bun 7 1", b"BUN 7 01"]),
    // A comment, a quotation, two calls.
    ("VUN 7", &[b"# CUN 8", b"\"CUN 8\"", b"CUN 8;", b"CUN 8 CUN 8", b"CUN 8 # 8", b"(CUN 8)"]),
];

/// Lines that read the state: only the readable lines have made it.
#[rustfmt::skip]
const READS: [&str; 12] = [
    "SUS", "SUN", "SUN 9", "SOP 1", "SIP 2", "VUN 1", "VUN 2", "VUN 7", "VOP 1 5 2", "VUS U",
    "VUS 9", "SUS 7",
];

/// The readable line of each group, its others, and the line again; at the end
/// the reads, and a line of a NUL without a line feed.
pub fn script() -> Vec<u8> {
    let groups = GROUPS.iter().flat_map(|(readable, others)| {
        let readable = readable.as_bytes();
        [&[readable], *others, &[readable]].concat()
    });
    let mut script = Vec::new();
    for line in groups.chain(READS.map(str::as_bytes)) {
        script.extend(line);
        script.push(b'\n');
    }
    script.extend(b"SUN\0");
    script
}

#[cfg(test)]
mod tests {
    use super::*;
    use crate::script::read_call;

    #[test]
    fn only_the_first_line_of_a_group_is_readable() {
        for (readable, others) in GROUPS {
            assert!(read_call(readable.as_bytes(), 0).is_some(), "{readable}");
            for line in others {
                assert!(read_call(line, 0).is_none(), "{}", line.escape_ascii());
            }
        }
    }
}
