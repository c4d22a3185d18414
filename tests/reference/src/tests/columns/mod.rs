//! At which column a line is refused.

mod beginnings;

use super::refusals::WELL_FORMED;
use super::{joined, refused};
use crate::text;

/// A line of the well-formed description, a number, and lines that are refused
/// with it in its place, a `^` before the byte at which they are.
type Marked = (&'static str, u8, &'static [&'static str]);

#[rustfmt::skip]
const OF_FORM: &[Marked] = &[
    ("names=3", 2, &[
        "names=^25", "names=25^ ", "names=^0", "names=^26", "names=0^0", "names=^", "names=10^0",
        "name^=3", "^Names=3", "names^", "^", "^ names=3", "names=3^\r", "names=^x", "names^ =3",
    ]),
    ("name=c", 2, &[
        "name=^", "name=^C", "name=c^C", "name=abcdefgh^i", "name^s=c", "na^ne=c", "name=c^ ",
        "name=a^:1", "^term=tau", "name=tau^:1",
    ]),
    ("equations=1", 2, &["equations=^17", "equations=17^ ", "equation^=1", "equations=1^,"]),
    ("terms=17", 2, &["terms=^0", "terms=^97", "terms=97^0", "term^=act a", "terms=0^0"]),
    ("term=act a", 2, &[
        "term=^foo 0", "term=all^ 0", "term=all^", "term=act abcdefgh^i", "term^s=tau", "term=act^",
        "term=act ^", "term=act ^A", "term=act a^,b", "term=act a^ ", "term=a^", "term=ac^ a",
        "term=^none", "term=a^b", "term=^ act a", "term=^", "^",
    ]),
    ("term=sum 0", 2, &[
        "term=sum 0^0", "term=sum 10^0", "term=su^x", "term=s^", "term=s^x", "term=sum^", "term=sum ^",
        "term=sum 0^ ", "term=sum 99^ 0", "term=sum^s 0", "term=sum ^x",
    ]),
    ("term=tau", 2, &["term=tau^ ", "term=tau^0", "term=ta^", "term=t^"]),
    ("term=seq 0 1", 2, &[
        "term=seq 0^", "term=seq 0 ^", "term=seq 0 1^ 2", "term=seq 99 ^x", "term=se^", "term=seq ^x 99",
        "term=seq 0 ^ 1", "term=seq 0^1 1",
    ]),
    ("term=lmerge 0 1", 2, &["term=lmerge 0 0^1", "term=l^", "term=lm^x", "term=l^ merge 0 1"]),
    ("term=block 0 a", 2, &[
        "term=block 0 zz^:1", "term=block 0 ^", "term=block 0 a,^", "term=block 0 a,b,^,c",
        "term=block 0^", "term=block 0 a^>b", "term=block 99 zz^.", "term=b^ 0 a",
        "term=block 0 b,a,zz,^A", "term=block 0 a^ 1",
    ]),
    ("term=rename 0 a>b", 2, &[
        "term=rename 0 none^", "term=rename 0 a>b,c^", "term=rename 0 a>^", "term=rename 0 a>b^>c",
        "term=rename 0 a^:1>b", "term=rename 0 ^>b", "term=re^x 0 a>b",
    ]),
    ("term=comm 0 a:2>b", 2, &[
        "term=comm 0 a^>b", "term=comm 0 tau^>a", "term=comm 0 a:1.tau^>b", "term=comm 0 none^",
        "term=comm 0 a:2>b^:1", "term=comm 0 a:2>^", "term=comm 0 a:2^", "term=comm 0 a:1^,b:1>c",
        "term=comm 0 a:2>b,^", "term=comm 0 a:2.^>b", "term=comm 0 a:10^0>b", "term=comm 0 a:0^2>b",
        "term=com^ 0 a:2>b", "term=c^", "term=co^", "term=comm 0 a:2>b^.c", "term=comm 0 a:^>b",
    ]),
    ("term=allow 0 a:1", 2, &[
        "term=allow 0 all^", "term=allow 0 none^,a:1", "term=allow 0 a:1,none^", "term=allow 0 zz^",
        "term=allow 0 a:1^>b", "term=allow 0 a:1.^.b:1", "term=allow 0 tau:10^0", "term=allow 0 a:0^0",
        "term=allow 0 a:1,^", "term=allow 0 nones^", "term=allow 0 non^", "term=allow 0 none^ ",
        "term=allow 0 none^.a:1", "term=allow 0 a^,b:1,A:1", "term=allow 0 abcdefgh^i:1",
    ]),
    ("equation=0", 2, &["equation=^", "equation=0^0", "equation=10^0", "equation^s=0", "^root=0"]),
    ("root=0", 2, &["root=^", "root=0^07", "root^:0", "root=0^ ", "r^"]),
    ("order=all", 2, &[
        "order=none^,a:1", "order=tau^", "order=all^,a:1", "order=alll^", "order=^", "order=a^",
        "order=all^ ", "order=al^", "order=a:1,all^", "order=a:1,b:1,^", "order=none^.", "order=^,",
        "order=tau:1,tau^", "order=a:1^ b:1", "order=al^,a:1", "order^s=all", "order=all:^",
    ]),
];

#[rustfmt::skip]
const OF_WHAT_IS_WRITTEN: &[Marked] = &[
    ("name=c", 3, &["name=^tau", "name=^a"]),
    ("term=act a", 3, &["term=act ^zz", "term=act ^none"]),
    ("term=block 0 a", 3, &[
        "term=block 99 ^zz", "term=block 0 a,^zz", "term=block 0 ^zz,yy", "term=block 0 b,a,^zz",
        "term=block 0 ^none", "term=block 0 a,b,c,^d,e",
    ]),
    ("term=rename 0 a>b", 3, &[
        "term=rename 0 a>^zz", "term=rename 0 ^zz>yy", "term=rename 0 b>a,a>^all,zz>a",
        "term=rename 0 a>b,^tau>c",
    ]),
    ("term=comm 0 a:2>b", 3, &[
        "term=comm 0 a:1.^zz:1>b", "term=comm 0 a:0>^zz", "term=comm 0 ^tau:0>tau",
        "term=comm 0 a:2>a,a:3>a,a:4>a,a:5>a,a:6>a,a:7>a,a:8>a,a:9>a,^zz:2>a",
    ]),
    ("term=allow 0 a:1", 3, &[
        "term=allow 0 a:0,^zz:1", "term=allow 99 a:1.^zz:1", "term=allow 0 b:1.a:1.^d:1,yy:1",
        "term=allow 0 a:1,^none:99",
    ]),
    ("order=all", 3, &["order=^all:1", "order=b:1,a:1,^zz:1", "order=a:99.^tau:1,zz:1"]),
    ("term=ref 0", 4, &["term=ref ^1", "term=ref ^99"]),
    ("term=sum 0", 4, &["term=sum ^4"]),
    ("term=seq 0 1", 4, &["term=seq ^99 99", "term=seq 0 ^8", "term=seq ^10 10", "term=seq 7 ^8"]),
    ("term=sync 0 1", 4, &["term=sync 10 ^11", "term=sync ^11 0"]),
    ("term=block 0 a", 4, &["term=block ^12 a", "term=block ^99 b,a"]),
    ("term=allow 0 a:1", 4, &["term=allow ^16 a:0,a:0"]),
    ("equation=0", 4, &["equation=^17"]),
    ("root=0", 4, &["root=^99"]),
    ("term=block 0 a", 5, &[
        "term=block 0 b,^a", "term=block 0 a,^a", "term=block 0 a,c,^b,a", "term=block 0 c,^a,b",
    ]),
    ("term=rename 0 a>b", 5, &["term=rename 0 b>a,^a>b", "term=rename 0 a>c,b>a,^b>b,a>a"]),
    ("term=comm 0 a:2>b", 5, &[
        "term=comm 0 ^a:1>b", "term=comm 0 ^a:2.b:0>c", "term=comm 0 ^a:1.b:1.a:1>c",
        "term=comm 0 a:2>b,^a:2>c", "term=comm 0 a:2>b,^b:1>c,a:3>c", "term=comm 0 b:2>a,^a:32>b",
        "term=comm 0 a:2>a,a:3>a,a:4>a,a:5>a,a:6>a,a:7>a,a:8>a,a:9>a,^a:10>a,a:11>a",
        "term=comm 0 a:2>a,a:3>a,^a:3>a,a:5>a,a:6>a,a:7>a,a:8>a,a:9>a,a:10>a,a:11>a",
    ]),
    ("term=allow 0 a:1", 5, &[
        "term=allow 0 ^a:0", "term=allow 0 a:1,^a:2.b:30,a:0", "term=allow 0 ^a:1.b:1.a:1",
        "term=allow 0 b:1,^a:1,a:1", "term=allow 0 a:1,a:2,^a:1.b:0,c:0",
    ]),
    ("order=all", 5, &["order=^a:0", "order=c:1,^a:31", "order=a:1,b:1,c:1,^a:1.c:1.b:1"]),
];

#[test]
fn each_line_is_refused_where_it_is_marked() {
    for (line, reason, replacements) in [OF_FORM, OF_WHAT_IS_WRITTEN].concat() {
        let place = WELL_FORMED.iter().position(|other| *other == line).unwrap();
        for marked in replacements {
            let column = marked.find('^').expect("a mark") + 1;
            let replacement = marked.replace('^', "");
            let mut lines = WELL_FORMED.to_vec();
            lines[place] = &replacement;
            let text = text::answer(joined(&lines).as_bytes());
            assert_eq!(text, refused(reason, place + 1, column), "{}", marked);
        }
    }
}

/// Where the text ends before the LF, the form is looked at first, and the end
/// is as far as any line goes.
#[test]
fn a_line_without_its_end_is_refused_at_its_end() {
    let cases = [
        ("names=25", 9),
        ("names=24", 9),
        ("names=25 ", 9),
        ("names=", 7),
        ("nam", 4),
        ("names=00", 8),
    ];
    for (text, column) in cases {
        assert_eq!(text::answer(text.as_bytes()), refused(2, 1, column), "{}", text);
    }
}
