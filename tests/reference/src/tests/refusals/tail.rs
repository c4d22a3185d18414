//! The bodies, the root and the order.

use super::{Row, READ};

#[rustfmt::skip]
pub const ROWS: &[Row] = &[
    ("equation=0", &[
        (READ, &["equation=16", "equation=3"]),
        (2, &["equation=", "equation=00", "equation=100", "equation=x", "equation=0 ",
              "equation= 0", "equation=0\r", "equations=0", "equation 0", "Equation=0", "body=0",
              "root=0"]),
        (4, &["equation=17", "equation=99"]),
    ]),
    ("root=0", &[
        (READ, &["root=16", "root=9"]),
        (2, &["root=", "root=007", "root=00", "root=100", "root=a", "root=0 ", "root=0,1",
              "root=0\r", "root=\u{663}", "roots=0", "root:0", "Root=0", "root", "equation=0"]),
        (4, &["root=17", "root=99"]),
    ]),
    ("order=all", &[
        (READ, &["order=none", "order=a:1", "order=a:31", "order=a:31,b:1,c:1"]),
        (2, &[
            "order=", "order=none,a:1", "order=all,a:1", "order=tau", "order=a", "order=zz",
            "order=a:1,", "order=a:1,all", "order=a:1,tau", "order=a:1.", "order=a:100",
            "order=a:00", "order=a:01", "order=tau:100", "order= all", "order=all ", "order=alll",
            "order=ALL", "order=a:1 b:1", "order=none.", "order=,", "order=tau:1,tau",
            "order=all\r", "order=all\0", "order=a:1\r", "orders=all", "order", "order:all",
            "Order=all", "term=tau",
        ]),
        (3, &[
            "order=zz:1", "order=tau:1", "order=none:1", "order=all:1", "order=tau:0",
            "order=all:99", "order=b:1,a:1,zz:1", "order=a:99.tau:1",
        ]),
        (5, &[
            "order=a:0", "order=a:32", "order=a:31.b:1", "order=b:1.a:1", "order=a:1.a:1",
            "order=a:1,a:1", "order=b:1,a:1", "order=a:10,a:9", "order=a:1.b:1,b:1",
            "order=c:1,a:31",
        ]),
    ]),
];
