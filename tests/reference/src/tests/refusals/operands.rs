//! Terms without a list.

use super::{Row, READ};

#[rustfmt::skip]
pub const ROWS: &[Row] = &[
    ("term=act a", &[
        (READ, &["term=act b", "term=act c", "term=tau"]),
        (2, &[
            "term=act", "term=act ", "term=act a b", "term=act  a", "term=act a ", "term=act A",
            "term=act 9a", "term=act 9", "term=act abcdefghi", "term=act aB", "term=act a_b",
            "term=act a,b", "term=act a:1", "term=act a.b", "term=act\ta", "term=act a\r",
            "term=act \0", "term=Act a", "term=acts a", "term=ac a", "act a", "term=a", "term=0",
            "term=", "term", "Term=tau", " term=tau", "term =tau", "terms=tau", "term=foo 0",
            "term=none", "term=all", "term=foo", "term=zz 0 1", "term=foo 0 a", "", "equation=0",
        ]),
        (3, &[
            "term=act abcdefgh", "term=act d", "term=act aa", "term=act all", "term=act tau",
            "term=act none", "term=act delta",
        ]),
    ]),
    ("term=tau", &[
        (2, &["term=tau 0", "term=tau ", "term=tau  ", "term= tau", "term=TAU", "term=tau\r",
              "term=tau0", "term=tau a"]),
    ]),
    ("term=delta", &[
        (2, &["term=delta 0", "term=delta ", "term=delt", "term=deltas", "term=delta\r",
              "term=Delta"]),
    ]),
    ("term=ref 0", &[
        (2, &["term=ref", "term=ref ", "term=ref 0 1", "term=ref  0", "term=ref 0 ", "term=ref x",
              "term=ref 00", "term=ref 100", "term=ref -1", "term=ref 0\r", "term=refs 0"]),
        (4, &["term=ref 1", "term=ref 2", "term=ref 16", "term=ref 99"]),
    ]),
    ("term=sum 0", &[
        (READ, &["term=sum 3", "term=sum 1"]),
        (2, &["term=sum", "term=sum ", "term=sum 0 1", "term=sum 0 ", "term=sum 100",
              "term=sum 00", "term=sum x", "term=sum\t0", "term=sums 0", "term=sum a"]),
        (4, &["term=sum 4", "term=sum 5", "term=sum 16", "term=sum 17", "term=sum 99"]),
    ]),
    ("term=cond 0", &[
        (READ, &["term=cond 4"]),
        (2, &["term=cond", "term=cond ", "term=cond 0 1", "term=cond  0", "term=cond 007",
              "term=cond a", "term=cond 0\0", "term=conds 0"]),
        (4, &["term=cond 5", "term=cond 6", "term=cond 99"]),
    ]),
    ("term=choice 0 1", &[
        (READ, &["term=choice 5 5", "term=choice 1 0"]),
        (2, &["term=choice 0", "term=choice 0 ", "term=choice", "term=choice 0 1 2",
              "term=choice 0  1", "term=choice 0,1", "term=choice 99 x", "term=choice 00 1",
              "term=choice 0 01", "term=choice 0 1\r", "term=choices 0 1"]),
        (4, &["term=choice 6 0", "term=choice 0 6", "term=choice 99 0", "term=choice 0 99"]),
    ]),
    ("term=ifelse 0 1", &[
        (READ, &["term=ifelse 6 0"]),
        (2, &["term=ifelse 0", "term=ifelse 0 1 2", "term=ifelse 0 1 ", "term=ifelse 0 100",
              "term=ifelse x 1", "term=if 0 1", "term=ifElse 0 1"]),
        (4, &["term=ifelse 7 0", "term=ifelse 0 7", "term=ifelse 0 16"]),
    ]),
    ("term=seq 0 1", &[
        (READ, &["term=seq 7 7"]),
        (2, &["term=seq 0", "term=seq 0 1 2", "term=seq 0.1", "term=seq 0 1a", "term=seq 0x 1",
              "term=seqs 0 1"]),
        (4, &["term=seq 8 0", "term=seq 0 8", "term=seq 17 17"]),
    ]),
    ("term=merge 0 1", &[
        (READ, &["term=merge 0 8", "term=merge 0 0"]),
        (2, &["term=merge 0", "term=merge 0 1 2", "term=merge  0 1", "term=merge 0 +1",
              "term=merge a b", "term=merges 0 1", "term=rmerge 0 1"]),
        (4, &["term=merge 9 0", "term=merge 0 9", "term=merge 95 96"]),
    ]),
    ("term=lmerge 0 1", &[
        (READ, &["term=lmerge 9 0"]),
        (2, &["term=lmerge 0", "term=lmerge 0 1 2", "term=lmerge 0 1 ", "term=lmerge 0 001",
              "term=lmerge 1. 0", "term=l merge 0 1"]),
        (4, &["term=lmerge 10 0", "term=lmerge 0 10"]),
    ]),
    ("term=sync 0 1", &[
        (READ, &["term=sync 0 0", "term=sync 1 1", "term=sync 1 0", "term=sync 2 0",
                 "term=sync 0 2", "term=sync 3 0", "term=sync 0 3", "term=sync 4 1",
                 "term=sync 1 5", "term=sync 6 6", "term=sync 7 0", "term=sync 0 8",
                 "term=sync 9 0", "term=sync 0 10", "term=sync 10 10"]),
        (2, &["term=sync 0", "term=sync 0 1 1", "term=sync 0\t1", "term=sync 00 1",
              "term=sync a a", "term=syncs 0 1"]),
        (4, &["term=sync 1 99", "term=sync 99 1", "term=sync 11 0", "term=sync 0 11",
              "term=sync 2 11", "term=sync 11 2", "term=sync 3 12", "term=sync 12 3",
              "term=sync 11 11"]),
    ]),
];
