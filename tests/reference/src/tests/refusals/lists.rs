//! Terms with a list.

use super::{Row, READ};

#[rustfmt::skip]
pub const ROWS: &[Row] = &[
    ("term=block 0 a", &[
        (READ, &["term=block 11 a,b,c", "term=block 0 a,c"]),
        (2, &[
            "term=block 0", "term=block a", "term=block 0 ", "term=block 0 a 1", "term=block 00 a",
            "term=block a a", "term=block 0 a,", "term=block 0 ,a", "term=block 0 a,,b",
            "term=block 0 a, b", "term=block 0 a;b", "term=block 0 A", "term=block 0 a:1",
            "term=block 0 a.b", "term=block 0 a>b", "term=block 0 0", "term=block 0 zz,B",
            "term=block 0 a\r", "term=blocks 0 a",
        ]),
        (3, &[
            "term=block 0 none", "term=block 0 tau", "term=block 0 all", "term=block 0 zz",
            "term=block 99 zz", "term=block 0 b,a,zz", "term=block 0 zz,a,a", "term=block 0 a,none",
        ]),
        (4, &["term=block 12 a", "term=block 99 b,a", "term=block 17 a"]),
        (5, &[
            "term=block 0 b,a", "term=block 0 a,a", "term=block 0 a,c,b",
            "term=block 0 a,b,c,a,b,c,a,b,c,a,b,c,a",
        ]),
    ]),
    ("term=hide 0 a", &[
        (READ, &["term=hide 12 c", "term=hide 0 b,c"]),
        (2, &[
            "term=hide 0", "term=hide a", "term=hide 0 ", "term=hide 0 1 a", "term=hide 100 a",
            "term=hide 0 a,", "term=hide 0 ,", "term=hide 0 a:1", "term=hide 0 a>b",
            "term=hide 0 a,9b", "term=hides 0 a",
        ]),
        (3, &["term=hide 0 none", "term=hide 0 zz", "term=hide 19 zz", "term=hide 0 b,a,tau"]),
        (4, &["term=hide 13 a", "term=hide 99 a,a"]),
        (5, &["term=hide 0 b,a", "term=hide 0 a,a", "term=hide 0 c,a,b"]),
    ]),
    ("term=rename 0 a>b", &[
        (READ, &[
            "term=rename 13 a>a", "term=rename 0 a>b,b>a", "term=rename 0 a>c,b>c",
            "term=rename 0 a>b,b>c,c>a",
        ]),
        (2, &[
            "term=rename 0", "term=rename a>b", "term=rename 0 ", "term=rename 0 a>b a",
            "term=rename x a>b", "term=rename 0 none", "term=rename 0 a", "term=rename 0 a>",
            "term=rename 0 >b", "term=rename 0 a>b>c", "term=rename 0 a>b,", "term=rename 0 a>b,c",
            "term=rename 0 a>b,,b>a", "term=rename 0 a:1>b", "term=rename 0 a>b:1",
            "term=rename 0 a->b", "term=rename 0 a=b", "term=rename 0 a>B", "term=rename 0 all",
            "term=rename 0 zz>yy,x", "term=rename 0 a>\u{e9}", "term=renames 0 a>b",
        ]),
        (3, &[
            "term=rename 0 a>none", "term=rename 0 zz>a", "term=rename 0 tau>a",
            "term=rename 0 a>b,zz>a", "term=rename 0 b>a,a>zz", "term=rename 99 all>a",
        ]),
        (4, &["term=rename 14 a>b", "term=rename 99 b>a,a>b"]),
        (5, &[
            "term=rename 0 b>a,a>b", "term=rename 0 a>b,a>c", "term=rename 0 a>a,a>a",
            "term=rename 0 a>c,c>b,b>a",
        ]),
    ]),
    ("term=comm 0 a:2>b", &[
        (READ, &[
            "term=comm 14 a:2>a", "term=comm 0 a:1.b:1>c,c:2>a", "term=comm 0 a:31>b",
            "term=comm 0 a:1.b:30>c", "term=comm 0 a:2>b,a:3>b,b:2>a,a:1.b:2>a",
            "term=comm 0 a:2>a,a:3>a,a:4>a,a:5>a,a:6>a,a:7>a,a:8>a,a:9>a",
        ]),
        (2, &[
            "term=comm 0", "term=comm a:2>b", "term=comm 0 ", "term=comm 0 a:2>b ",
            "term=comm 00 a:2>b", "term=comm 0 none", "term=comm 0 a:2", "term=comm 0 a:2>",
            "term=comm 0 >b", "term=comm 0 a:2>b:1", "term=comm 0 a>b", "term=comm 0 a:2>b,",
            "term=comm 0 a:2>b,b:2", "term=comm 0 a:2.>b", "term=comm 0 .a:2>b",
            "term=comm 0 a:2..b:1>b", "term=comm 0 a:1,b:1>c", "term=comm 0 a:2>b>c",
            "term=comm 0 tau>a", "term=comm 0 a:1.tau>b", "term=comm 0 a:100>b",
            "term=comm 0 a:00>b", "term=comm 0 a:02>b", "term=comm 0 a:>b", "term=comm 0 :2>b",
            "term=comm 0 a2>b", "term=comm 0 A:2>b", "term=comm 0 a:2>B", "term=comm 0 all",
            "term=comm 0 a:2>b.c", "term=comm 0 tau:2", "term=comm 0 a:2:2>b",
            "term=comm 0 a:2>b\r", "term=comms 0 a:2>b",
        ]),
        (3, &[
            "term=comm 0 a:2>tau", "term=comm 0 zz:2>a", "term=comm 0 a:1.zz:1>b",
            "term=comm 0 tau:1>a", "term=comm 0 a:1.tau:0>b", "term=comm 0 none:99>a",
            "term=comm 99 a:0>zz", "term=comm 0 a:1>all", "term=comm 0 b:2>a,a:2>zz",
            "term=comm 0 a:2>a,a:3>a,a:4>a,a:5>a,a:6>a,a:7>a,a:8>a,a:9>a,zz:2>a",
        ]),
        (4, &["term=comm 15 a:2>b", "term=comm 99 a:0>b"]),
        (5, &[
            "term=comm 0 a:1>b", "term=comm 0 a:0>b", "term=comm 0 a:32>b", "term=comm 0 a:99>b",
            "term=comm 0 a:16.b:16>c", "term=comm 0 a:1.a:1>b", "term=comm 0 b:1.a:1>c",
            "term=comm 0 a:2.b:0>c", "term=comm 0 a:2>b,a:2>c", "term=comm 0 a:3>b,a:2>b",
            "term=comm 0 b:2>a,a:2>b", "term=comm 0 a:1.b:1>c,b:2>c,a:2>c",
            "term=comm 0 a:2>b,b:1>c",
            "term=comm 0 a:2>a,a:3>a,a:4>a,a:5>a,a:6>a,a:7>a,a:8>a,a:9>a,a:10>a",
        ]),
    ]),
    ("term=allow 0 a:1", &[
        (READ, &[
            "term=allow 15 none", "term=allow 0 a:31", "term=allow 0 a:1.b:30",
            "term=allow 0 b:1,a:1.b:1", "term=allow 0 a:9,a:10,b:1,a:30.b:1,c:1",
        ]),
        (2, &[
            "term=allow 0", "term=allow a:1", "term=allow 0 ", "term=allow 0 a:1 1",
            "term=allow  0 a:1", "term=allow 000 a:1", "term=allow 0 all", "term=allow 0 zz",
            "term=allow 0 a", "term=allow 0 tau", "term=allow 0 none,a:1", "term=allow 0 a:1,none",
            "term=allow 0 a:1,", "term=allow 0 ,a:1", "term=allow 0 a:1.", "term=allow 0 a:1..b:1",
            "term=allow 0 a:100", "term=allow 0 a:00", "term=allow 0 a:01", "term=allow 0 a:",
            "term=allow 0 :1", "term=allow 0 tau:100", "term=allow 0 a:1>b", "term=allow 0 A:1",
            "term=allow 0 a:1:1", "term=allow 0 a:1b:1", "term=allow 0 a:1, b:1",
            "term=allow 0 none ", "term=allow 0 zz:1,a", "term=allow 0 .", "term=allow 0 a:1\r",
            "term=allow 0 \u{ff11}", "term=allow 0 a:99.zz", "term=allows 0 a:1",
        ]),
        (3, &[
            "term=allow 0 zz:1", "term=allow 0 tau:1", "term=allow 0 none:1", "term=allow 0 all:1",
            "term=allow 0 tau:0", "term=allow 0 tau:99", "term=allow 0 a:0,zz:1",
            "term=allow 99 a:1.zz:1", "term=allow 0 b:1.a:1,all:0", "term=allow 0 a:1.tau:1",
        ]),
        (4, &["term=allow 16 a:1", "term=allow 17 none", "term=allow 99 a:32"]),
        (5, &[
            "term=allow 0 a:0", "term=allow 0 a:32", "term=allow 0 a:99", "term=allow 0 a:1.b:31",
            "term=allow 0 a:11.b:11.c:10", "term=allow 0 b:1.a:1", "term=allow 0 a:1.a:1",
            "term=allow 0 a:1,a:1", "term=allow 0 b:1,a:1", "term=allow 0 a:1.b:1,b:1",
            "term=allow 0 a:2,a:1", "term=allow 0 b:1,a:31", "term=allow 0 a:1,b:0",
        ]),
    ]),
];
