//! The counts and the names.

use super::{Row, READ};

#[rustfmt::skip]
pub const ROWS: &[Row] = &[
    ("names=3", &[
        (2, &[
            "names=0", "names=25", "names=99", "names=100", "names=", "names=03", "names=3 ",
            "names= 3", "names=-1", "names=+3", "names=x", "names", "Names=3", "names:3",
            "names=3,", "names=3\r", "names=3\0", "\u{feff}names=3", " names=3", "name=3", "",
        ]),
    ]),
    ("name=c", &[
        (READ, &[
            "name=abcdefgh", "name=c1234567", "name=delta", "name=act", "name=order", "name=term",
            "name=taux", "name=nones", "name=all1", "name=ta",
        ]),
        (2, &[
            "name=", "name=A", "name=aB", "name=9", "name=9a", "name=abcdefghi", "name=c d",
            "name=c ", "name= c", "name=a_b", "name=a-b", "name=a:1", "name=a,b", "name=c\r",
            "name=c\t", "name=\u{e4}", "name", "names=c", "Name=c", "term=tau", "name==c",
        ]),
        (3, &["name=tau", "name=none", "name=all", "name=a", "name=b"]),
    ]),
    ("equations=1", &[
        (2, &[
            "equations=17", "equations=99", "equations=100", "equations=", "equations=01",
            "equations=001", "equations=x", "equation=1", "equations =1", "equations",
            "equations=1\r", "terms=17", "name=d",
        ]),
    ]),
    ("terms=17", &[
        (2, &[
            "terms=0", "terms=97", "terms=99", "terms=100", "terms=", "terms=017", "terms=17 ",
            "terms=x", "term=17", "terms", "terms=17\r", "term=act a", "equations=1",
        ]),
    ]),
];
