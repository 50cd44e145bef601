//! The small inputs of the table of refusal numbers, and the decided
//! readings about texts.

mod common;
use common::*;

fn net(words: &str) -> String {
    listing(words, "")
}

#[test]
fn table() {
    assert_eq!(net("N,2 R,s0,s1"), "refused,1,2");
    assert_eq!(net("N,33"), "refused,2,1");
    assert_eq!(net("N,1 L,s0,0 T,s0,s0 Q,0,nil"), "refused,3,3");
    assert_eq!(net("N,2 T,s2,s0"), "refused,4,2");
    assert_eq!(net("N,1 L,s0,0 Q,0,rep,0"), "refused,5,0");
    assert_eq!(net("N,2 L,s0,0 L,s1,0 Q,0,nil"), "refused,6,0");
    assert_eq!(net("N,1 L,s0,0 Q,0,in,1,s0,!u2,u2 Q,1,nil"), "refused,7,3");
    assert_eq!(net("N,1 L,s0,0 Q,0,out,1,u3,s0 Q,1,nil"), "refused,8,0");
    assert_eq!(net("N,1 Q,0,out,1,u3,s0 Q,1,nil"), "refused,6,0");
}

/// Document 02, No. 8: 35 while the state has no arrival, then 36 while a thread
/// stands on one of the newest one's lines.
#[test]
fn withdrawals() {
    let net = "N,1 L,s0,0 Q,0,accept,1,0 Q,1,nil";
    let arrival = "bring Q,0,rep,1 Q,1,nil .";
    expect(net, "", &[("withdraw", "refused,35,0")]);
    expect(net, "", &[(arrival, "brought,2"), ("withdraw", "withdrawn,2")]);
    let taken_in = [(arrival, "brought,2"), ("step,0,0,2", "performed,s0,s0,a")];
    expect(net, "", &[taken_in[0], taken_in[1], ("withdraw", "refused,36,0")]);
}

/// Rows that have the form of no group.
const MALFORMED: &[&str] = &[
    "N",
    "N,",
    "N,01",
    "N,1000",
    "N,1,",
    "N,-1",
    "n,1",
    "X,1",
    ".",
    "R,s0,s0,",
    "R,s0,s0,io",
    "R,s0,s0,oo",
    "R,s0,self,o",
    "R,u0,s0,o",
    "D,0,u0,o",
    "D,s0,s0,o",
    "T,s0",
    "T,s0,",
    "T,s0,s0,s0,s0,s0,s0",
    "T,s0,self",
    "T,s0,s0\r",
    "L,0,0",
    "L,s0,s0",
    "Q,0",
    "Q,0,",
    "Q,0,nil,",
    "Q,0,par,1",
    "Q,0,par,1,2,3",
    "Q,0,rep",
    "Q,0,out,1,s0",
    "Q,0,out,1,s0,!u0",
    "Q,0,out,1,!u0,s0",
    "Q,0,in,1,!u0,s0",
    "Q,0,in,1,s0,!s0",
    "Q,0,in,1,s0,s0,s0,s0,s0,s0",
    "Q,0,eval,1,s0,2",
    "Q,0,eval,1,s0,2,s0",
    "Q,0,accept,1",
    "Q,0,new,1",
    "Q,0,nil0",
    "Q,0,out,1,selfs,s0",
    "Q,00,nil",
    "B,0,s0",
    "B,u0,u0",
    "A,s0",
    "E,s0,s0,",
    "E,s0,self,o",
    "Q,0,in,1,s0,! u0",
    "T, s0,s0",
    " T,s0,s0",
    "T,s0,s0 ",
    ",",
    "s",
    "Q,0,out,s0,s0",
];

#[test]
fn forms() {
    for row in MALFORMED {
        assert_eq!(
            text_listing(&format!("N,1\n{row}\n.\n")),
            if *row == "." { "refused,1,1" } else { "refused,1,2" },
            "{row:?}"
        );
    }
    assert_eq!(text_listing("N,1\n\n.\n"), "refused,1,2");
}

/// Rows in which `-` stands where it may not, and rights that are none.
const MALFORMED_RIGHTS: &[&str] = &[
    "R,s0,s0,-",
    "E,s0,s0,-",
    "D,0,s0,--",
    "D,0,s0,-o",
    "D,0,s0,o-",
    "D,0,s0,",
    "D,0,s0",
    "D,0,s0,-,",
    "D,0,s0,-,-",
    "D,0,s0, -",
    "D,0,s0,- ",
    "D,0,s0,-\r",
    "D,0,s0,oirea-",
    "D,0,s0,-oirea",
    "D,0,s0,o-i",
    "D,0,s0,0",
    "D,0,self,--",
    "D,0,self,-o",
    "D,0,self,o-",
    "D,0,self,",
    "D,0,self",
    "D,0,-,o",
    "D,0,-,-",
    "D,-,s0,o",
    "D,-,self,-",
    "D,0,-",
    "D,-",
    "D,0,u0,-",
    "D,0,!u0,-",
    "D,0,_,-",
    "D,s0,s0,-",
    "D,0,s0,\u{2212}",
    "R,s0,s0,o-",
    "R,s0,-,o",
    "E,s0,s0,-o",
    "E,s0,self,-",
    "T,s0,-",
    "L,s0,-",
    "Q,0,-",
    "Q,0,rep,-",
    "Q,0,out,1,s0,-",
    "Q,0,in,1,-,s0",
    "Q,0,accept,1,-",
    "B,u0,-",
    "A,s0,-",
    "N,-",
    "-",
];

/// Document 02, No. 3: "`D,k,self,-`, where `-` is the empty set, allowed in D
/// rows only".
#[test]
fn rows_without_rights() {
    let good = ["D,0,s0,-", "D,0,s1,-", "D,31,self,-", "D,0,s0,- D,0,s1,- D,0,self,- D,1,self,-"];
    for rows in good {
        assert_eq!(net(&format!("N,2 {rows}")), "accepted,0 U,s0,0,0,0 U,s1,0,0,0", "{rows}");
    }
    for row in MALFORMED_RIGHTS {
        assert_eq!(text_listing(&format!("N,1\n{row}\n")), "refused,1,2", "{row:?}");
        assert_eq!(text_listing(&format!("N,1\n.\n{row}\n")), "refused,1,1", "{row:?}");
    }
}

/// A row with `-` counts as the pair's row, and `self` is a t of its own.
#[test]
fn repeats_of_rows_without_rights() {
    for t in ["s0", "s1", "self"] {
        let others = "D,0,s2,- D,1,s0,- D,1,s1,- D,1,self,-";
        for (first, second) in
            [("-", "-"), ("-", "o"), ("-", "oirea"), ("o", "-"), ("oirea", "-"), ("o", "i")]
        {
            let rows = format!("N,3 D,0,{t},{first} {others} D,0,{t},{second}");
            assert_eq!(net(&rows), "refused,3,7", "{rows}");
            let rows = format!("N,3 D,0,{t},{first} D,0,{t},{second}");
            assert_eq!(net(&rows), "refused,3,3", "{rows}");
        }
    }
    let all = "D,0,s0,- D,0,self,- D,0,s1,o D,1,self,o D,1,s0,o D,1,s1,-";
    assert!(net(&format!("N,2 {all}")).starts_with("accepted,0"));
}

/// 1, 2, 3, 4 in this order beside `-`.
#[test]
fn order_beside_no_rights() {
    assert_eq!(net("N,2 D,32,s1,-"), "refused,2,2");
    assert_eq!(net("N,2 D,32,self,-"), "refused,2,2");
    assert_eq!(net("N,2 D,0,s32,-"), "refused,2,2");
    assert_eq!(net("N,2 D,32,s1,--"), "refused,1,2");
    assert_eq!(net("N,2 D,0,s2,-"), "refused,4,2");
    assert_eq!(net("N,2 D,0,s31,-"), "refused,4,2");
    assert_eq!(net("N,2 D,0,s2,-o"), "refused,1,2");
    assert_eq!(net("N,2 D,0,s1,- D,32,s1,-"), "refused,2,3");
    assert_eq!(net("N,2 T,s0,s0 D,0,s2,-"), "refused,3,3");
    assert_eq!(net("N,2 T,s0,s0 D,32,s1,-"), "refused,2,3");
    assert_eq!(net("D,0,s0,-"), "refused,3,1");
    assert_eq!(listing("N,2", "D,0,s2,-"), "refused,3,1");
    assert_eq!(listing("N,2", "D,32,s1,-"), "refused,2,1");
    let brought =
        [("bring Q,0,nil D,0,self,- .", "refused,3,2"), ("bring D,0,s0,-- .", "refused,1,1")];
    expect("N,1", "", &brought);
}

#[test]
fn limits_come_before_order() {
    let over = [
        "N,0",
        "N,33",
        "N,999",
        "R,s32,s0,o",
        "R,s0,s999,o",
        "D,32,s0,o",
        "D,0,s32,o",
        "T,s0,s32",
        "L,s0,256",
        "L,s32,0",
        "Q,256,nil",
        "Q,0,rep,256",
        "Q,0,par,1,256",
        "Q,0,out,1,u32,s0",
        "Q,0,in,1,s0,!u32",
        "Q,0,eval,1,s0,256,0",
        "Q,0,eval,1,s0,2,32",
        "Q,0,accept,1,32",
        "B,u32,s0",
        "B,u0,s32",
        "A,s0,s0,s32",
        "E,s0,s32,o",
    ];
    for row in over {
        assert_eq!(net(&format!("N,1 Q,0,nil {row}")), "refused,2,3", "{row}");
        assert_eq!(listing("N,1", &format!("E,s0,s0,o {row}")), "refused,2,2", "{row}");
    }
}

#[test]
fn order_and_repeats() {
    assert_eq!(net("R,s0,s0,o"), "refused,3,1");
    assert_eq!(net("N,1 N,1"), "refused,3,2");
    assert_eq!(net("N,2 D,0,s5,o R,s5,s5,o"), "refused,4,2");
    assert_eq!(net("N,2 D,0,s1,o R,s5,s5,o"), "refused,3,3");
    assert_eq!(net("N,2 R,s0,s1,o R,s1,s0,o R,s0,s1,i"), "refused,3,4");
    assert_eq!(net("N,2 D,0,self,o D,0,s0,o D,1,self,o D,0,self,r"), "refused,3,5");
    assert_eq!(net("N,2 T,s0,s1 T,s0,s1,s1 T,s0,s1"), "refused,3,4");
    assert_eq!(net("N,2 L,s0,0 L,s1,1 L,s0,0"), "refused,3,4");
    assert_eq!(net("N,2 B,u0,s0"), "refused,3,2");
    assert_eq!(listing("N,2", "A,s0,s0 B,u0,s0"), "refused,3,2");
    assert_eq!(listing("N,2", "B,u0,s0 B,u0,s1 B,u0,s0"), "refused,3,3");
    assert_eq!(listing("N,2", "E,s0,s1,o E,s0,s1,i"), "refused,3,2");
    assert_eq!(listing("N,2", "Q,0,nil"), "refused,3,1");
    assert_eq!(listing("N,2", "N,2"), "refused,3,1");
    assert_eq!(listing("N,2", "A,s0,s2"), "refused,4,1");
}

fn many(count: usize, row: impl Fn(usize) -> String) -> String {
    (0..count).map(|at| format!("{} ", row(at))).collect()
}

#[test]
fn counts() {
    let tuple = |at: usize| format!("T,s{},s{},s{}", at % 8, at / 8 % 8, at / 64);
    assert_eq!(net(&format!("N,8 {}", many(256, tuple))), "broken,T,0");
    assert_eq!(net(&format!("N,8 {} T,s0,s0,s0", many(256, tuple))), "refused,2,258");
    let root = |at: usize| format!("L,s0,{at}");
    let nil = |at: usize| format!("Q,{at},nil");
    assert!(net(&format!("N,1 {}{}", many(64, root), many(64, nil))).starts_with("accepted,0"));
    assert_eq!(net(&format!("N,1 {}{}", many(65, root), many(65, nil))), "refused,2,66");
    let rep = |at: usize| if at == 255 { nil(at) } else { format!("Q,{at},rep,{}", at + 1) };
    assert!(net(&format!("N,1 L,s0,0 {}", many(256, rep))).starts_with("accepted,0"));
    assert_eq!(net(&format!("N,1 L,s0,0 {} Q,0,nil", many(256, rep))), "refused,2,259");
    let allowed = |at: usize| tuple(at).replace('T', "A");
    assert!(listing("N,8", &many(256, allowed)).starts_with("accepted,0"));
    assert_eq!(listing("N,8", &format!("{} A,s9,s9", many(256, allowed))), "refused,2,257");
}

#[test]
fn whole_text() {
    assert_eq!(net("N,1 L,s0,0"), "refused,5,0");
    assert_eq!(net("N,1 L,s0,1 Q,1,nil"), "refused,5,0");
    assert_eq!(net("N,1 L,s0,0 Q,0,rep,2 Q,1,nil"), "refused,5,0");
    assert_eq!(net("N,1 L,s0,0 Q,0,out,1,u0,u0 Q,1,nil Q,2,rep,1"), "refused,5,0");
    assert_eq!(net("N,1 Q,0,nil"), "refused,6,0");
    assert_eq!(net("N,1 L,s0,0 Q,0,par,1,1 Q,1,nil"), "refused,6,0");
    assert_eq!(net("N,1 L,s0,0 Q,0,out,1,u0,u0 Q,1,nil Q,2,nil"), "refused,6,0");
    assert_eq!(listing("N,1 Q,0,nil", "X"), "refused,6,0");
    assert_eq!(listing("N,1", "X"), "refused,1,1");
}

#[test]
fn scope_of_variables() {
    let free = |lines: &str| net(&format!("N,2 L,s0,0 {lines}")) == "refused,8,0";
    assert!(free("Q,0,in,1,u0,!u0 Q,1,nil"));
    assert!(free("Q,0,in,1,s0,!u0,u1 Q,1,nil"));
    assert!(!free("Q,0,in,1,s0,!u0 Q,1,in,2,u0,!u0 Q,2,nil"));
    assert!(!free("Q,0,in,1,s0,!u0 Q,1,eval,2,s0,3,0 Q,2,nil Q,3,out,4,u0,u0 Q,4,nil"));
    assert!(free("Q,0,par,1,3 Q,1,in,2,s0,!u0 Q,2,nil Q,3,out,4,u0,s0 Q,4,nil"));
    assert!(free("Q,0,eval,1,s0,2,0 Q,1,nil Q,2,eval,3,u0,4,0 Q,3,nil Q,4,nil"));
}

#[test]
fn templates() {
    let template = |fields: &str| net(&format!("N,2 Q,0,read,1,s1,{fields}"));
    assert_eq!(template("!u2,s0,!u2"), "refused,7,2");
    assert_eq!(template("u2,!u2"), "refused,7,2");
    assert_eq!(template("!u2,s2,u2"), "refused,4,2");
    assert_eq!(template("!u2,!u3"), "refused,5,0");
    assert_eq!(net("N,2 Q,0,in,1,u2,!u2"), "refused,5,0");
}

/// Where no wildcard may stand, and what is none. "`_` in `out` or as a
/// target is still 1" (document 02, No. 1).
const NO_WILDCARDS: &[&str] = &[
    "N,_",
    "R,_,s0,o",
    "R,s0,_,o",
    "R,s0,s0,_",
    "D,_,s0,o",
    "D,0,_,o",
    "D,0,s0,_",
    "T,_,s0",
    "T,s0,_",
    "T,s0,s0,_",
    "L,_,0",
    "L,s0,_",
    "Q,_,nil",
    "Q,0,rep,_",
    "Q,0,par,1,_",
    "Q,0,out,1,s0,_",
    "Q,0,out,1,s0,s0,_",
    "Q,0,out,1,_,s0",
    "Q,0,in,_,s0,s0",
    "Q,0,in,1,_,s0",
    "Q,0,in,1,_,_",
    "Q,0,read,1,_,s0",
    "Q,0,eval,1,_,2,0",
    "Q,0,eval,1,s0,_,0",
    "Q,0,eval,1,s0,2,_",
    "Q,0,accept,1,_",
    "B,_,s0",
    "B,u0,_",
    "A,_,s0",
    "A,s0,_",
    "A,s0,s0,s0,s0,_",
    "E,_,s0,o",
    "E,s0,_,o",
    "E,s0,s0,_",
    "Q,0,in,1,s0,__",
    "Q,0,in,1,s0,!_",
    "Q,0,in,1,s0,_!",
    "Q,0,in,1,s0,_u0",
    "Q,0,in,1,s0,_0",
    "Q,0,in,1,s0, _",
    "Q,0,in,1,s0,_ ",
    "Q,0,in,1,s0,s_",
    "Q,0,in,1,s0,u_",
    "Q,0,in,1,s0,!u_",
    "Q,0,in,1,s0,_,",
    "Q,0,read,1,s0,_,__",
    "Q,0,read,1,s0,_s0",
    "Q,0,read,1,s0,_,_,_,_,_",
    "Q,0,read,1,s0,s0,s0,s0,s0,_",
    "Q,0,read,1,s0,_,s0,s0,s0,s0",
];

#[test]
fn wildcards_out_of_place() {
    for row in NO_WILDCARDS {
        assert_eq!(text_listing(&format!("N,1\n{row}\n")), "refused,1,2", "{row:?}");
        assert_eq!(text_listing(&format!("N,1\n.\n{row}\n")), "refused,1,1", "{row:?}");
    }
}

/// "Templates of `in` and `read` get the field `_`"; the row is good, and the
/// line that it names is absent.
#[test]
fn wildcards_in_templates() {
    let fields = ["_", "_,_", "_,_,_", "_,_,_,_", "!u0,_", "_,!u0", "u0,_", "_,u0", "self,_,s1,_"];
    for fields in fields.iter().chain(&["_,!u0,_,!u1", "!u0,_,u1", "_,s0", "_,self"]) {
        for line in ["in", "read"] {
            assert_eq!(net(&format!("N,2 Q,0,{line},1,u9,{fields}")), "refused,5,0", "{fields}");
        }
    }
}

/// 7 passes over a wildcard, as do 2 and 4: what stands beside it counts.
#[test]
fn fields_beside_wildcards() {
    for line in ["in", "read"] {
        let template = |fields: &str| net(&format!("N,2 Q,0,{line},1,s1,{fields}"));
        assert_eq!(template("!u0,_,u0"), "refused,7,2");
        assert_eq!(template("u0,_,!u0"), "refused,7,2");
        assert_eq!(template("_,!u0,_,!u0"), "refused,7,2");
        assert_eq!(template("_,s2"), "refused,4,2");
        assert_eq!(template("!u0,s2,_,u0"), "refused,4,2");
        assert_eq!(template("_,u32"), "refused,2,2");
        assert_eq!(template("!u32,_"), "refused,2,2");
    }
}

/// A wildcard "binds nothing", so that it leaves a variable free.
#[test]
fn wildcards_bind_nothing() {
    let lines =
        |fields: &str| net(&format!("N,2 L,s0,0 Q,0,in,1,s1,{fields} Q,1,out,2,u0,s0 Q,2,nil"));
    assert_eq!(lines("_"), "refused,8,0");
    assert_eq!(lines("!u1,_"), "refused,8,0");
    assert_eq!(lines("!u0,_"), "accepted,1 V,s0,s1,i U,s0,0,0,0 U,s1,0,0,0");
}

#[test]
fn bytes_left_over() {
    assert_eq!(text_listing("N,1"), "refused,1,1");
    assert_eq!(text_listing("N,1\nR"), "refused,1,2");
    assert_eq!(text_listing("N,1\nR\nN"), "refused,1,2");
    assert_eq!(text_listing("N,1\nN,1\nN"), "refused,3,2");
    assert_eq!(text_listing("N,1\n."), "refused,1,2");
    assert_eq!(text_listing("N,1\n.\nB,u0,s0"), "refused,1,1");
    assert_eq!(text_listing("N,1\n.\nB,u0,s0\n.\n"), "refused,1,2");
    assert_eq!(text_listing("N,1\n"), "accepted,0 U,s0,0,0,0");
    assert_eq!(text_listing("N,1\n.\n"), "accepted,0 U,s0,0,0,0");
    assert_eq!(text_listing("N,1\r\n"), "refused,1,1");
}
