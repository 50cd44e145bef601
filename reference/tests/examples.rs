//! The nine examples that document 01 marks as proved, the small cases
//! around them, and what document 02 says of wildcards (No. 1), of sandboxes
//! silent about `self` (No. 3) and of shares (No. 7).

mod common;
use common::*;
use reference::flow::{check, Answer, REPORT_BYTES};
use reference::rows::Refusal;

const USE_REST: &str = "U,s2,0,0,0 U,s3,0,0,0 U,s4,0,0,0 U,s5,0,0,0";

#[test]
fn net_m() {
    let expected = format!("accepted,1 V,s1,s1,a U,s0,2,2,1000 U,s1,4,3,750 {USE_REST}");
    assert_eq!(listing(NET_M, ESTIMATE_M), expected);
}

#[test]
fn net_m_with_right_to_accept() {
    let net = NET_M.replace("R,s1,s0,o ", "R,s1,s0,o R,s1,s1,a ");
    let expected = format!("accepted,0 U,s0,2,2,1000 U,s1,5,4,800 {USE_REST}");
    assert_eq!(listing(&net, ESTIMATE_M), expected);
}

#[test]
fn net_m_without_one_estimate_row() {
    assert_eq!(listing(NET_M, &without(ESTIMATE_M, "A,s0,s5")), "broken,Q,4");
    assert_eq!(listing(NET_M, &without(ESTIMATE_M, "B,u1,s5")), "broken,Q,3");
    assert_eq!(listing(NET_M, &without(ESTIMATE_M, "A,s2,s3,s4")), "broken,T,0");
    assert_eq!(listing(NET_M, &without(ESTIMATE_M, "E,s1,s2,r")), "broken,Q,0");
}

/// "1 of 16 is 62, 3 of 16 is 188, 3 of 4 still 750."
#[test]
fn shares_to_the_nearest() {
    let net = "N,4 R,s0,s0,oirea R,s0,s1,oirea R,s0,s2,oirea R,s0,s3,o";
    let rest = "U,s1,0,0,0 U,s2,0,0,0 U,s3,0,0,0";
    assert_eq!(listing(net, "E,s0,s3,o"), format!("accepted,0 U,s0,16,1,62 {rest}"));
    let with_root = format!("{net} L,s0,0 Q,0,in,1,s2,s1 Q,1,read,2,self,s1 Q,2,nil");
    let expected = format!("accepted,0 U,s0,16,3,188 {rest}");
    assert_eq!(listing(net, "E,s0,s1,oia"), expected);
    assert_eq!(listing(&with_root, "E,s0,s3,o"), expected);
    assert_eq!(listing("N,1 R,s0,s0,oire", "E,s0,s0,oir"), "accepted,0 U,s0,4,3,750");
}

/// What is said of `fields` as a template at s1, by a line of `word`.
fn judged(word: &str, fields: &str, estimate: &str) -> String {
    let net = format!("N,4 L,s0,0 Q,0,{word},1,s1,{fields} Q,1,nil");
    listing(&net, estimate).split(',').next().unwrap().to_string()
}

/// A wildcard needs no B row, and "binding a spare variable widens the
/// estimate".
#[test]
fn wildcards_ask_for_nothing() {
    let estimate = "B,u0,s2 A,s1,s2,s3 A,s1,s2,s0";
    for word in ["in", "read"] {
        assert_eq!(judged(word, "_,_", estimate), "accepted");
        assert_eq!(judged(word, "!u0,_", estimate), "accepted");
        assert_eq!(judged(word, "!u0,!u9", estimate), "broken");
        assert_eq!(judged(word, "_", "A,s1,s2"), "accepted");
        assert_eq!(judged(word, "!u9", "A,s1,s2"), "broken");
    }
    assert_eq!(
        judged("in", "!u0,!u9", "B,u0,s2 B,u9,s0 B,u9,s3 A,s1,s2,s3 A,s1,s2,s0"),
        "accepted"
    );
}

/// A wildcard "agrees with any site": each A row, whatever it has there,
/// asks for the B rows of `!u` beside it.
#[test]
fn wildcards_take_every_row() {
    let estimate = "B,u0,s0 B,u0,s1 B,u0,s2 A,s1,s0,s0 A,s1,s1,s1 A,s1,s2,s2 A,s1,s3,s0";
    for word in ["in", "read"] {
        assert_eq!(judged(word, "_,!u0", estimate), "accepted");
        for site in 0..3 {
            let less = without(estimate, &format!("B,u0,s{site}"));
            assert_eq!(judged(word, "_,!u0", &less), "broken");
        }
        // The first field of the last row is not among the B rows.
        assert_eq!(judged(word, "!u0,_", estimate), "broken");
        assert_eq!(judged(word, "!u0,s0", estimate), "broken");
        assert_eq!(judged(word, "!u0,s2", estimate), "accepted");
    }
}

/// A row at another site, of another number of fields, or with another site
/// in a field that is named, is not taken.
#[test]
fn wildcards_leave_the_rest_as_it_was() {
    for word in ["in", "read"] {
        assert_eq!(judged(word, "_,!u0", "A,s1,s2,s3"), "broken");
        for row in ["A,s0,s2,s3", "A,s1,s2", "A,s1,s2,s3,s0", "A,s1,s2,s3,s0,s0"] {
            assert_eq!(judged(word, "_,!u0", row), "accepted", "{row}");
        }
        assert_eq!(judged(word, "_,!u0,s2", "A,s1,s2,s3,s2"), "broken");
        assert_eq!(judged(word, "_,!u0,s2", "A,s1,s2,s3,s3"), "accepted");
        assert_eq!(judged(word, "_,!u0,self", "A,s1,s2,s3,s0"), "broken");
        assert_eq!(judged(word, "_,!u0,self", "A,s1,s2,s3,s1"), "accepted");
        assert_eq!(judged(word, "self,_,!u0,_", "A,s1,s0,s3,s3,s3"), "broken");
        assert_eq!(judged(word, "self,_,!u0,_", "A,s1,s3,s3,s3,s3"), "accepted");
    }
}

/// The use map is that of the target; a wildcard adds no right.
#[test]
fn wildcards_use_no_right() {
    let net = "N,3 R,s0,s1,ir L,s0,0 Q,0,in,1,s1,_ Q,1,read,2,s1,_,_ Q,2,nil";
    let expected = "accepted,0 U,s0,2,2,1000 U,s1,0,0,0 U,s2,0,0,0";
    assert_eq!(listing(net, "A,s1,s2 A,s1,s2,s0"), expected);
}

#[test]
fn only_an_n_row() {
    let sites: Vec<String> = (0..32).map(|site| format!("U,s{site},0,0,0")).collect();
    assert_eq!(text_listing("N,32\n"), format!("accepted,0 {}", sites.join(" ")));
    assert_eq!(text_listing("N,33\n"), "refused,2,1");
}

#[test]
fn empty_net() {
    assert_eq!(text_listing(""), "refused,3,1");
    assert_eq!(text_listing(".\n"), "refused,3,1");
}

#[test]
fn report_buffer() {
    let (net, estimate) = (rows(NET_M), rows(ESTIMATE_M));
    let mut buffer = [7; REPORT_BYTES + 5];
    let answer = check(net.as_bytes(), estimate.as_bytes(), &mut buffer);
    assert_eq!(answer, Answer::Accepted);
    let mut expected = [0; REPORT_BYTES + 5];
    expected[32 + 1] = 16;
    expected[REPORT_BYTES..].fill(7);
    assert_eq!(buffer, expected);
}

#[test]
fn nothing_written_unless_accepted() {
    let (net, estimate) = (rows(NET_M), rows(&without(ESTIMATE_M, "A,s0,s5")));
    let mut buffer = [7; REPORT_BYTES];
    let answer = check(net.as_bytes(), estimate.as_bytes(), &mut buffer);
    assert!(matches!(answer, Answer::Broken(_)));
    assert_eq!(buffer, [7; REPORT_BYTES]);
}

#[test]
fn short_buffer_comes_first() {
    let mut buffer = [7; REPORT_BYTES - 1];
    let answer = check(b"", b"", &mut buffer);
    assert_eq!(answer, Answer::Refused(Refusal { number: 9, row: 0 }));
    assert_eq!(buffer, [7; REPORT_BYTES - 1]);
}

#[test]
fn input_size() {
    let filler = "N,1\n".repeat(65_536 / 4);
    assert_eq!(text_listing(&filler), "refused,3,2");
    assert_eq!(text_listing(&format!("{filler}\n")), "refused,2,0");
}

/// A body is sent to the site where it is, and reads there; `SELF` is the
/// sandbox's row for `self`.
const AT_HOME: &str = "N,2 R,s0,s0,ire D,0,s0,r SELF T,s0,s0 L,s0,0 Q,0,eval,1,s0,2,0 Q,1,nil \
    Q,2,read,3,s0,s0 Q,3,nil";

/// The listings for a row `self` (none if empty), without and with `E,s0,s0,r`.
fn at_home(own: &str) -> [String; 2] {
    let net = AT_HOME.replace("SELF", own);
    [listing(&net, "A,s0,s0"), listing(&net, "A,s0,s0 E,s0,s0,r")]
}

/// "Joining d(l) with d(self)" is an error: the body may use r on s0 at s0 only
/// if the `self` row has it. "a sandbox with no `self` row has all five rights
/// for `self`" (document 02, No. 3).
#[test]
fn sandbox_at_its_own_site() {
    let reported = "accepted,1 V,s0,s0,r U,s0,3,1,333 U,s1,0,0,0";
    let reported_with_row = "accepted,1 V,s0,s0,r U,s0,3,2,667 U,s1,0,0,0";
    let empty = "accepted,0 U,s0,3,2,667 U,s1,0,0,0";
    for own in ["", "D,0,self,r", "D,0,self,or", "D,0,self,oirea", "D,1,self,-", "D,0,s1,-"] {
        assert_eq!(at_home(own), ["broken,Q,0", empty], "{own}");
    }
    for own in ["D,0,self,-", "D,0,self,o", "D,0,self,oiea"] {
        assert_eq!(at_home(own), [reported, reported_with_row], "{own}");
    }
}

/// `-` towards a site is a row without rights, as if there were none; it is no
/// row for `self`, even where the body is at that site.
#[test]
fn no_rights_towards_a_site() {
    for own in ["", "D,0,self,r", "D,0,self,-", "D,0,self,oirea"] {
        let net = AT_HOME.replace("SELF", own);
        let (empty, none) = (net.replace("D,0,s0,r", "D,0,s0,-"), without(&net, "D,0,s0,r"));
        for estimate in ["A,s0,s0", "A,s0,s0 E,s0,s0,r"] {
            assert_eq!(listing(&empty, estimate), listing(&none, estimate), "{own}");
            assert!(listing(&empty, estimate).starts_with("accepted,1 V,s0,s0,r"), "{own}");
        }
    }
}

/// "The union over a reach" is an error: on both sites of a reach the body has
/// only what is sure. A `self` row takes rights from the site where the body
/// is, and so from each site of the reach; without one they are all kept.
#[test]
fn sure_rights_over_a_reach() {
    let net = |own: &str| {
        format!(
            "N,2 R,s0,s0,ire R,s0,s1,ire D,0,s0,r D,0,s1,r {own} T,s0,s0 T,s0,s1 L,s0,0 \
            Q,0,read,1,s0,!u0 Q,1,eval,2,u0,3,0 Q,2,nil Q,3,read,4,s0,s1 Q,4,nil"
        )
    };
    let estimate = "B,u0,s0 B,u0,s1 A,s0,s0 A,s0,s1 E,s0,s0,r E,s0,s1,r E,s1,s0,r E,s1,s1,r";
    let unsure = "accepted,3 V,s0,s0,r V,s1,s0,r V,s1,s1,r U,s0,6,4,667 U,s1,0,0,0";
    let sure = "accepted,2 V,s1,s0,r V,s1,s1,r U,s0,6,4,667 U,s1,0,0,0";
    for (own, expected) in [
        ("D,0,self,-", unsure),
        ("D,0,self,oiea", unsure),
        ("D,0,self,r", sure),
        ("D,0,self,oirea", sure),
        ("", sure),
    ] {
        assert_eq!(listing(&net(own), estimate), expected, "{own}");
        // The sandbox evaluated at s1 holds r on s0: E rows of s0 must have it.
        assert_eq!(listing(&net(own), &without(estimate, "E,s0,s0,r")), "broken,Q,1", "{own}");
    }
}

/// The sandbox is another policy at s1 than at s2: of what it has towards each
/// of them, only what the `self` row has too is sure.
#[test]
fn sure_rights_differ_by_site() {
    let home = "R,s0,s0,i R,s0,s1,e R,s0,s2,e R,s1,s1,or R,s1,s2,ir R,s2,s1,or R,s2,s2,ir";
    let lines = "Q,0,in,1,s0,!u0 Q,1,eval,2,u0,3,0 Q,2,nil Q,3,par,4,6 Q,4,out,5,s1,s0 Q,5,nil \
        Q,6,par,7,9 Q,7,in,8,s2,s0 Q,8,nil Q,9,read,10,self,s0 Q,10,nil";
    let estimate = "B,u0,s1 B,u0,s2 A,s0,s1 A,s0,s2 A,s1,s0 E,s1,s1,or E,s1,s2,ir \
        E,s2,s1,or E,s2,s2,ir";
    for (own, expected) in [
        ("", "accepted,0"),
        ("D,0,self,oir", "accepted,0"),
        ("D,0,self,or", "accepted,2 V,s1,s2,i V,s2,s2,i"),
        ("D,0,self,o", "accepted,6 V,s1,s1,r V,s1,s2,ir V,s2,s1,r V,s2,s2,ir"),
        ("D,0,self,-", "accepted,8 V,s1,s1,or V,s1,s2,ir V,s2,s1,or V,s2,s2,ir"),
    ] {
        let net = format!("N,3 {home} D,0,s1,or D,0,s2,ir {own} T,s0,s1 T,s0,s2 L,s0,0 {lines}");
        assert_eq!(listing(&net, estimate).split(" U,").next(), Some(expected), "{own}");
    }
}

/// An `accept` adds the sandbox evaluated at its place.
#[test]
fn accepts_and_self() {
    let net = |own: &str| format!("N,1 R,s0,s0,a D,0,s0,or {own} L,s0,0 Q,0,accept,1,0 Q,1,nil");
    for (own, expected) in [
        ("", "accepted,2 V,s0,s0,or U,s0,1,1,1000"),
        ("D,0,self,oirea", "accepted,2 V,s0,s0,or U,s0,1,1,1000"),
        ("D,0,self,ri", "refused,1,4"),
        ("D,0,self,ir", "accepted,1 V,s0,s0,r U,s0,1,1,1000"),
        ("D,0,self,-", "accepted,0 U,s0,1,1,1000"),
    ] {
        assert_eq!(listing(&net(own), ""), expected, "{own}");
    }
}

#[test]
fn empty_reach_demands_nothing() {
    let net = "N,2 L,s0,0 Q,0,read,1,s0,!u0 Q,1,out,2,s0,s1,u0 Q,2,eval,3,u0,4,0 Q,3,nil \
        Q,4,out,5,s1,s1 Q,5,nil";
    assert_eq!(listing(net, ""), "broken,Q,4");
    let accepted = listing(net, "A,s1,s1");
    assert_eq!(accepted, "accepted,2 V,s0,s0,or U,s0,0,0,0 U,s1,0,0,0");
}

/// The out rule with more choices than there can be A rows.
#[test]
fn many_choices() {
    let net = "N,32 L,s0,0 Q,0,read,1,s1,!u0 Q,1,out,2,u0,u0,u0,u0,u0 Q,2,nil";
    let binds: Vec<String> = (0..32).map(|site| format!("B,u0,s{site}")).collect();
    assert_eq!(listing(net, &binds.join(" ")), "broken,Q,1");
}
