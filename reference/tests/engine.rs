//! Engine scripts: net M with two arrivals, full lists, bring and withdraw,
//! bindings, sandboxes with and without a row for `self`.

mod common;
use common::*;
use reference::engine::State;
use reference::script;

const BRING_READER: &str = "bring Q,0,rep,1 Q,1,read,2,s2,s3,!u1 Q,2,nil .";
const BRING_WRITER: &str = "bring Q,0,out,1,s0,s4 Q,1,nil .";

#[test]
fn net_m_with_two_arrivals() {
    let mut commands = vec![
        ("ready", "ready,0"),
        ("guarded,0,0,0", "performed,s0,s1,e"),
        ("step,64,0,0", "refused,21,0"),
        ("step,0,256,0", "refused,22,0"),
        ("step,0,0,0", "refused,23,0"),
        ("step,1,0,0", "refused,24,0"),
        (BRING_READER, "brought,8"),
        (BRING_WRITER, "brought,11"),
        ("door,8,1,1", "passes"),
        ("door,11,1,1", "closed"),
        ("door,9,6,32", "refused,24,0"),
        ("door,8,6,32", "refused,4,0"),
        ("door,8,1,32", "refused,2,0"),
        ("step,1,0,11", "refused,25,0"),
        ("guarded,1,0,8", "refused,26,0"),
        ("guarded,2,1,0", "performed,s1,s2,r"),
        ("guarded,2,0,0", "performed,s1,s0,o"),
        ("step,1,0,8", "performed,s1,s1,a"),
    ];
    commands.extend([("step,1,0,0", "silent"); 62]);
    commands.extend([
        ("step,1,0,0", "refused,27,0"),
        ("ready", "ready,0"),
        ("guarded,0,2,0", "performed,s0,s0,i"),
        ("ready", "ready,0"),
        ("guarded,0,0,0", "silent"),
        ("guarded,0,0,0", "refused,27,0"),
        ("guarded,63,1,0", "performed,s1,s2,r"),
    ]);
    let state = expect(NET_M, ESTIMATE_M, &commands);
    assert_eq!(state[0], "state,63,2,13");
    let policy = format!("0000{:02x}{}", 5, "00".repeat(29));
    assert_eq!(state[1], format!("thread,s1,{policy},8,-"));
    assert_eq!(state[63], format!("thread,s1,{policy},9,-"));
    let rest = ["tuple,s2,s3,s4", "tuple,s2,s3,s5", "lines,13", "roots,8,11"];
    assert_eq!(state[64..], rest);
}

#[test]
fn start_is_refused_as_the_check() {
    assert_eq!(run("N,33", "", "ready"), ["refused,2,1"]);
    assert_eq!(run("N,1", "X", "ready"), ["refused,1,1"]);
    assert_eq!(
        run("N,1 T,s0,s0", "", ""),
        ["started", "state,0,1,0", "tuple,s0,s0", "lines,0", "roots"]
    );
}

#[test]
fn nil_roots_have_no_thread() {
    let state =
        expect("N,1 L,s0,1 L,s0,0 Q,0,nil Q,1,rep,2 Q,2,nil", "", &[("step,0,0,0", "silent")]);
    let policy = "00".repeat(32);
    assert_eq!(state[..2], ["state,1,0,3".to_string(), format!("thread,s0,{policy},1,-")]);
}

#[test]
fn bring_refusals() {
    let state = expect(
        "N,2 L,s0,0 Q,0,nil",
        "",
        &[
            ("bring .", "refused,5,0"),
            ("bring Q,0,nil X .", "refused,1,2"),
            ("bring Q,0,rep,256 .", "refused,2,1"),
            ("bring Q,0,nil N,2 .", "refused,3,2"),
            ("bring Q,0,out,1,s2,s0 .", "refused,4,1"),
            ("bring Q,1,nil .", "refused,5,0"),
            ("bring Q,0,rep,0 .", "refused,5,0"),
            ("bring Q,0,nil Q,1,nil .", "refused,6,0"),
            ("bring Q,0,in,1,s0,!u2,!u2 .", "refused,7,1"),
            ("bring Q,0,out,1,u3,s0 Q,1,nil .", "refused,8,0"),
            ("bring Q,0,par,1,2 Q,1,nil Q,2,nil .", "brought,1"),
        ],
    );
    assert_eq!(state, ["state,0,0,4", "lines,4", "roots,1"]);
}

#[test]
fn bring_past_all_lines() {
    let chain: String = (0..254).map(|at| format!("Q,{at},rep,{} ", at + 1)).collect();
    let net = format!("N,1 L,s0,0 {chain} Q,254,nil");
    expect(
        &net,
        "",
        &[
            ("bring Q,0,rep,1 Q,1,nil .", "refused,2,2"),
            ("bring Q,0,rep,1 T,s0,s0 .", "refused,3,2"),
            ("bring Q,0,nil .", "brought,255"),
            ("bring Q,0,nil .", "refused,2,1"),
            ("bring .", "refused,5,0"),
            ("bring Q,9,x .", "refused,1,1"),
        ],
    );
}

#[test]
fn rebinding_and_copies() {
    let net = "N,3 T,s0,s1 T,s1,s2 T,s2,s0 L,s0,0 Q,0,in,1,s0,!u0 Q,1,in,2,u0,!u0 \
        Q,2,eval,3,u0,5,0 Q,3,out,4,s0,u0,self Q,4,nil Q,5,read,6,self,!u1 Q,6,out,7,u1,u0,self Q,7,nil";
    let state = expect(
        net,
        "",
        &[
            ("step,0,1,0", "refused,23,0"),
            ("step,0,0,0", "performed,s0,s0,i"),
            ("step,0,0,0", "performed,s0,s1,i"),
            ("step,0,0,0", "performed,s0,s2,e"),
            ("step,1,0,0", "performed,s2,s2,r"),
            ("step,0,0,0", "performed,s0,s0,o"),
        ],
    );
    let policy = "00".repeat(32);
    let thread = format!("thread,s2,{policy},6,u0=s2 u1=s0");
    assert_eq!(state[..4], ["state,1,2,8", &thread, "tuple,s2,s0", "tuple,s0,s2,s0"]);
}

/// "`_`, which agrees with any site and binds nothing."
#[test]
fn wildcards_match() {
    let net = "N,4 T,s1,s2 T,s1,s2,s3 T,s1,s3,s3 T,s2,s2,s3 T,s1,s2,s3,s0 L,s0,0 L,s0,4 \
        Q,0,read,1,s1,_,s3 Q,1,in,2,s1,_,_ Q,2,in,3,s1,_ Q,3,nil \
        Q,4,read,5,s1,!u0,_ Q,5,read,6,s1,_,!u1 Q,6,in,7,s1,_,_,_ Q,7,rep,8 Q,8,nil";
    let state = expect(
        net,
        "",
        &[
            ("step,0,0,0", "refused,23,0"),
            ("step,0,3,0", "refused,23,0"),
            ("step,0,4,0", "refused,23,0"),
            ("step,0,5,0", "refused,22,0"),
            ("step,0,2,0", "performed,s0,s1,r"),
            ("step,1,2,0", "performed,s0,s1,r"),
            ("step,1,1,0", "performed,s0,s1,r"),
            ("guarded,0,1,0", "refused,26,0"),
            ("step,0,1,0", "performed,s0,s1,i"),
            ("step,0,1,0", "refused,23,0"),
            ("step,1,3,0", "performed,s0,s1,i"),
            ("step,0,0,0", "performed,s0,s1,i"),
        ],
    );
    let thread = format!("thread,s0,{},7,u0=s3 u1=s3", "00".repeat(32));
    assert_eq!(state[..4], ["state,1,2,9", &thread, "tuple,s1,s3,s3", "tuple,s2,s2,s3"]);
}

/// The two threads do the same; only the first binds the spare variable, and
/// what the second had bound before stays.
#[test]
fn wildcard_for_a_spare_variable() {
    let twin = |a: usize, fields: &str| {
        format!(
            "Q,{a},read,{},s1,!u9,!u1 Q,{},in,{},s1,{fields} Q,{},rep,{} Q,{},nil ",
            a + 1,
            a + 1,
            a + 2,
            a + 2,
            a + 3,
            a + 3
        )
    };
    let (first, second) = (twin(0, "!u9,!u1"), twin(4, "_,!u1"));
    let net = format!("N,4 T,s1,s0,s1 T,s1,s2,s3 T,s1,s2,s1 L,s0,0 L,s0,4 {first}{second}");
    let state = expect(
        &net,
        "",
        &[
            ("step,0,0,0", "performed,s0,s1,r"),
            ("step,1,0,0", "performed,s0,s1,r"),
            ("step,0,1,0", "performed,s0,s1,i"),
            ("step,1,1,0", "performed,s0,s1,i"),
        ],
    );
    let policy = "00".repeat(32);
    assert_eq!(state[1], format!("thread,s0,{policy},2,u1=s3 u9=s2"));
    assert_eq!(state[2], format!("thread,s0,{policy},6,u1=s1 u9=s0"));
    assert_eq!(state[3..], ["tuple,s1,s0,s1", "lines,8", "roots"]);
}

#[test]
fn ready_and_wildcards() {
    let net = "N,2 T,s1,s0,s1 L,s0,0 L,s0,2 L,s0,4 Q,0,in,1,s1,_,s0 Q,1,nil \
        Q,2,read,3,s1,_ Q,3,nil Q,4,in,5,s1,_,_ Q,5,nil";
    expect(
        net,
        "",
        &[("ready", "ready,2"), ("step,2,0,0", "performed,s0,s1,i"), ("ready", "ready,none")],
    );
}

/// Sandbox 0 lets an arrival read the ledger at s1. The second column is one
/// that no agent looks at: binding it takes B rows that are not there.
#[test]
fn door_and_wildcards() {
    expect(
        "N,4 D,0,s1,r T,s1,s2,s3 L,s0,0 Q,0,accept,1,0 Q,1,nil",
        "B,u0,s2 A,s1,s2,s3 A,s1,s2,s0 A,s1,s3",
        &[
            ("bring Q,0,read,1,s1,!u0,_ Q,1,nil .", "brought,2"),
            ("bring Q,0,read,1,s1,!u0,!u9 Q,1,nil .", "brought,4"),
            ("bring Q,0,read,1,s1,_,!u0 Q,1,nil .", "brought,6"),
            ("bring Q,0,read,1,s1,_,_ Q,1,nil .", "brought,8"),
            ("bring Q,0,in,1,s1,_,_ Q,1,nil .", "brought,10"),
            ("bring Q,0,read,1,s1,_,_,_ Q,1,nil .", "brought,12"),
            ("bring Q,0,out,1,s1,_ Q,1,nil .", "refused,1,1"),
            ("bring Q,0,read,1,_,s1 Q,1,nil .", "refused,1,1"),
            ("bring Q,0,read,1,s1,_ Q,1,out,2,s1,u0 Q,2,nil .", "refused,8,0"),
            ("door,2,0,0", "passes"),
            ("door,4,0,0", "closed"),
            ("door,6,0,0", "closed"),
            ("door,8,0,0", "passes"),
            ("door,10,0,0", "closed"),
            ("door,12,0,0", "passes"),
            ("step,0,0,6", "refused,25,0"),
            ("step,0,0,2", "performed,s0,s0,a"),
            ("step,0,0,0", "performed,s0,s1,r"),
        ],
    );
}

/// The door looks into eval bodies, against their own sandbox.
#[test]
fn door_and_eval_lines() {
    expect(
        "N,2 D,0,s1,e D,1,s0,r L,s0,0 Q,0,accept,1,0 Q,1,nil",
        "A,s0,s0 E,s1,s0,r",
        &[
            ("bring Q,0,eval,1,s1,2,1 Q,1,nil Q,2,nil .", "brought,2"),
            ("bring Q,0,eval,1,s1,2,1 Q,1,nil Q,2,read,3,s0,s0 Q,3,nil .", "brought,5"),
            ("bring Q,0,eval,1,s1,2,1 Q,1,nil Q,2,out,3,s0,s0 Q,3,nil .", "brought,9"),
            ("bring Q,0,eval,1,s1,2,0 Q,1,nil Q,2,nil .", "brought,13"),
            ("bring Q,0,eval,1,s1,2,1 Q,1,nil Q,2,read,3,s0,!u0 Q,3,nil .", "brought,16"),
            ("door,2,0,0", "passes"),
            ("door,5,0,0", "passes"),
            ("door,9,0,0", "closed"),
            // Sandbox 0 at s1 holds e on s1, for lack of a row `self`; no E row
            // has it.
            ("door,13,0,0", "closed"),
            ("door,16,0,0", "closed"),
            ("door,2,1,0", "passes"),
            ("step,0,0,9", "refused,25,0"),
            ("step,0,0,5", "performed,s0,s0,a"),
        ],
    );
}

/// A house whose arrivals read where they are taken in. Sandboxes 0 to 5 have r
/// there, and for `self`: no row, all rights, r, none, another right, no row
/// but `-` towards another site. Sandbox 6 has `-` there, and no row for `self`.
const DOORS: &str = "N,2 R,s0,s0,ra D,0,s0,r D,1,s0,r D,1,self,oirea D,2,s0,r D,2,self,r \
    D,3,s0,r D,3,self,- D,4,s0,r D,4,self,oiea D,5,s0,r D,5,s1,- D,6,s0,- T,s0,s1";

/// "a sandbox with no `self` row has all five rights for `self`."
#[test]
fn door_and_self() {
    let net = format!("{DOORS} L,s0,0 L,s0,2 Q,0,accept,1,3 Q,1,nil Q,2,accept,3,0 Q,3,nil");
    expect(
        &net,
        "A,s0,s1",
        &[
            ("ready", "ready,none"),
            ("bring Q,0,read,1,self,s1 Q,1,nil .", "brought,4"),
            ("bring Q,0,read,1,s0,_ Q,1,nil .", "brought,6"),
            ("bring Q,0,in,1,self,s1 Q,1,nil .", "brought,8"),
            ("door,4,0,0", "passes"),
            ("door,4,0,1", "passes"),
            ("door,4,0,2", "passes"),
            ("door,4,0,3", "closed"),
            ("door,4,0,4", "closed"),
            ("door,4,0,5", "passes"),
            ("door,4,0,6", "closed"),
            // At s1 each of them has r on s0, and nothing on s1.
            ("door,6,1,3", "passes"),
            ("door,4,1,0", "closed"),
            ("door,6,1,6", "closed"),
            ("door,8,0,0", "closed"),
            // No row at all.
            ("door,4,0,31", "closed"),
            ("ready", "ready,1"),
            ("step,0,0,4", "refused,25,0"),
            ("guarded,0,0,4", "refused,25,0"),
            ("guarded,1,0,4", "performed,s0,s0,a"),
            ("guarded,1,0,0", "performed,s0,s0,r"),
            ("ready", "ready,none"),
        ],
    );
}

/// The arrival's eval lines: what the sandbox holds at the receiving site must
/// be in its E rows, and what the body does must be sure.
#[test]
fn door_and_self_of_bodies() {
    let net = |own: &str| format!("N,2 D,0,s1,e D,1,s1,r {own} L,s0,0 Q,0,accept,1,0 Q,1,nil");
    let body = "bring Q,0,eval,1,s1,2,1 Q,1,nil Q,2,read,3,self,s0 Q,3,nil .";
    let idle = "bring Q,0,eval,1,s1,2,1 Q,1,nil Q,2,nil .";
    for (own, estimate, answers) in [
        ("", "", ["closed", "closed"]),
        ("", "E,s1,s1,r", ["passes", "passes"]),
        ("D,1,self,-", "", ["closed", "passes"]),
        ("D,1,self,-", "E,s1,s1,r", ["closed", "passes"]),
        ("D,1,self,or", "", ["closed", "closed"]),
        ("D,1,self,or", "E,s1,s1,r", ["passes", "passes"]),
        ("D,1,self,o", "", ["closed", "passes"]),
    ] {
        let asked = [("door,2,0,0", answers[0]), ("door,6,0,0", answers[1])];
        let commands = [(body, "brought,2"), (idle, "brought,6"), asked[0], asked[1]];
        expect(&net(own), estimate, &commands);
    }
}

/// What the threads of a body hold on the two sites, and what their guarded
/// steps answer, for a row `self` of its sandbox.
#[test]
fn guarded_steps_and_self() {
    let net = |own: &str| {
        format!(
            "N,2 R,s1,s1,oire D,0,s0,a D,0,s1,oir {own} T,s1,s0 L,s0,0 Q,0,eval,1,s1,2,0 Q,1,nil \
            Q,2,par,3,5 Q,3,read,4,self,s0 Q,4,nil Q,5,out,6,s1,s1 Q,6,nil"
        )
    };
    let (read, out, refused) = ("performed,s1,s1,r", "performed,s1,s1,o", "refused,26,0");
    for (own, held, answers) in [
        ("", "1007", [out, read]),
        ("D,0,self,oirea", "1007", [out, read]),
        ("D,0,self,rea", "1004", [refused, read]),
        ("D,0,self,o", "1001", [out, refused]),
        ("D,0,self,-", "1000", [refused, refused]),
    ] {
        let sent = [("step,0,0,0", "performed,s0,s1,e"), ("step,0,0,0", "silent")];
        let state = expect(&net(own), "", &sent);
        let policy = format!("{held}{}", "00".repeat(30));
        assert_eq!(state[1], format!("thread,s1,{policy},3,-"), "{own}");
        assert_eq!(state[2], format!("thread,s1,{policy},5,-"), "{own}");
        let guarded = [("guarded,1,0,0", answers[0]), ("guarded,0,0,0", answers[1])];
        expect(&net(own), "", &[sent, guarded].concat());
    }
}

/// The bodies' sandboxes hold r and o on s0; the home policy of s1 holds o
/// and i.
#[test]
fn guarded_steps_need_both_policies() {
    let net = "N,2 R,s0,s1,e R,s1,s0,oi D,0,s0,or T,s0,s0 L,s0,0 Q,0,eval,1,s1,2,0 Q,1,nil \
        Q,2,par,3,5 Q,3,read,4,s0,!u0 Q,4,nil Q,5,par,6,8 Q,6,in,7,s0,!u0 Q,7,nil \
        Q,8,out,9,s0,s1 Q,9,nil";
    expect(
        net,
        "",
        &[
            ("guarded,0,0,0", "performed,s0,s1,e"),
            ("guarded,0,0,0", "silent"),
            ("guarded,1,0,0", "silent"),
            ("guarded,0,0,0", "refused,26,0"),
            ("guarded,1,0,0", "refused,26,0"),
            ("guarded,2,0,0", "performed,s1,s0,o"),
            ("step,0,0,0", "performed,s1,s0,r"),
            ("step,0,0,0", "performed,s1,s0,i"),
        ],
    );
}

#[test]
fn full_tuple_list() {
    let tuples: String = (0..256).map(|at| format!("T,s{},s{} ", at / 16, at % 16)).collect();
    let net = format!(
        "N,16 R,s0,s0,o {tuples} L,s0,0 L,s1,2 Q,0,out,1,s0,s0 Q,1,nil Q,2,in,3,s3,!u0 Q,3,nil"
    );
    expect(
        &net,
        "",
        &[
            ("step,0,0,0", "refused,27,0"),
            ("guarded,0,0,0", "refused,27,0"),
            ("ready", "ready,1"),
            ("guarded,1,48,0", "refused,26,0"),
            ("step,1,48,0", "performed,s1,s3,i"),
            ("ready", "ready,0"),
            ("step,0,255,0", "performed,s0,s0,o"),
            ("ready", "ready,none"),
        ],
    );
}

#[test]
fn full_thread_list_and_nil() {
    let roots: String = (0..64).map(|at| format!("L,s0,{at} ")).collect();
    let mut lines = String::from("Q,0,par,64,65 Q,1,rep,66 Q,2,accept,67,0 Q,3,eval,68,s0,69,0 ");
    lines.extend((4..64).map(|at| format!("Q,{at},rep,{} ", at + 66)));
    lines.push_str("Q,64,nil Q,65,rep,130 Q,66,nil Q,67,rep,131 Q,68,rep,132 Q,69,nil ");
    lines.extend((70..133).map(|at| format!("Q,{at},nil ")));
    let net = format!("N,1 {roots}{lines}");
    expect(
        &net,
        "",
        &[
            ("bring Q,0,rep,1 Q,1,nil .", "brought,133"),
            ("bring Q,0,nil .", "brought,135"),
            ("step,2,0,133", "refused,27,0"),
            ("step,2,0,135", "performed,s0,s0,a"),
            ("step,1,0,0", "silent"),
            ("step,3,0,0", "performed,s0,s0,e"),
            ("step,0,0,0", "silent"),
            ("ready", "ready,0"),
        ],
    );
}

#[test]
fn commands_of_odd_form() {
    let net = "N,1 L,s0,0 Q,0,rep,1 Q,1,nil";
    expect(
        net,
        "",
        &[
            ("step,0,0", "bad command"),
            ("step,0,0,0,0", "bad command"),
            ("step,,0,0", "bad command"),
            ("step,-1,0,0", "bad command"),
            ("ready,", "bad command"),
            ("step,99999999999999999999999999,0,0", "refused,21,0"),
            ("step,0,99999999999999999999999999,18446744073709551616", "silent"),
            ("door,256,0,0", "refused,24,0"),
        ],
    );
}

#[test]
fn refused_calls_change_nothing() {
    let mut state = State::start(rows(NET_M).as_bytes(), rows(ESTIMATE_M).as_bytes()).unwrap();
    let before = state.clone();
    assert!(state.step(64, 0, 0).is_err());
    assert!(state.step(1, 0, 0).is_err());
    assert!(state.bring(b"Q,0,rep,1\n").is_err());
    assert!(state.bring(b"Q,0,nil\nQ").is_err());
    assert_eq!(state, before);
    assert!(state.guarded_step(0, 0, 0).is_ok());
    assert_ne!(state, before);
}

/// A warehouse at s0 takes in agents under sandbox 0, one after the other, for
/// the ledger at s1. Its lines are 0 to 2.
const HOUSE: &str = "N,3 D,0,s1,or T,s1,s2 L,s0,0 Q,0,rep,1 Q,1,accept,2,0 Q,2,nil";
const HOUSE_ESTIMATE: &str = "B,u0,s2 A,s1,s2 E,s2,s1,r";

/// Agents of a carrier: one that the door passes, and one that it does not.
const BRING_CLERK: &str = "bring Q,0,read,1,s1,!u0 Q,1,out,2,s1,u0 Q,2,nil .";
const BRING_TAKER: &str = "bring Q,0,in,1,s1,!u0 Q,1,nil .";

/// What an arrival did stays; its lines and its root go.
#[test]
fn a_withdrawal_leaves_threads_and_tuples() {
    let state = expect(
        HOUSE,
        HOUSE_ESTIMATE,
        &[
            (BRING_CLERK, "brought,3"),
            ("step,0,0,0", "silent"),
            ("step,1,0,3", "performed,s0,s0,a"),
            ("step,1,0,0", "performed,s0,s1,r"),
            ("step,1,0,0", "performed,s0,s1,o"),
            ("withdraw", "withdrawn,3"),
        ],
    );
    let thread = format!("thread,s0,{},0,-", "00".repeat(32));
    assert_eq!(state, ["state,1,2,3", &thread, "tuple,s1,s2", "tuple,s1,s2", "lines,3", "roots"]);
}

/// A number that was a later line of one arrival becomes the root of another.
#[test]
fn a_later_line_becomes_a_root() {
    expect(
        HOUSE,
        HOUSE_ESTIMATE,
        &[
            (BRING_CLERK, "brought,3"),
            ("door,4,0,0", "refused,24,0"),
            ("withdraw", "withdrawn,3"),
            ("bring Q,0,nil .", "brought,3"),
            (BRING_CLERK, "brought,4"),
            ("door,3,0,0", "passes"),
            ("door,4,0,0", "passes"),
            ("step,0,0,0", "silent"),
            ("step,1,0,4", "performed,s0,s0,a"),
            ("step,1,0,0", "performed,s0,s1,r"),
        ],
    );
}

/// "Lines fill up over a season."
#[test]
fn lines_become_free_again() {
    let chain: String = (0..252).map(|at| format!("Q,{at},rep,{} ", at + 1)).collect();
    let (full, over) =
        (format!("bring {chain} Q,252,nil ."), format!("bring {chain} Q,252,rep,253 Q,253,nil ."));
    let mut commands: Vec<(&str, &str)> = vec![(&over, "refused,2,254")];
    for _ in 0..5 {
        commands.extend([
            (full.as_str(), "brought,3"),
            ("bring Q,0,nil .", "refused,2,1"),
            ("withdraw", "withdrawn,3"),
            (BRING_CLERK, "brought,3"),
            (&full, "refused,2,251"),
            ("withdraw", "withdrawn,3"),
        ]);
    }
    let state = expect(HOUSE, HOUSE_ESTIMATE, &commands);
    assert_eq!(state[0], "state,1,1,3");
}

/// 253 arrivals of one line each, so that the last one is line 255.
#[test]
fn every_number_up_to_the_last_comes_free() {
    let mut singles: Vec<(&str, String)> =
        (3..256).map(|root| ("bring Q,0,nil .", format!("brought,{root}"))).collect();
    singles.push(("bring Q,0,nil .", "refused,2,1".to_string()));
    singles.extend((3..256).rev().map(|root| ("withdraw", format!("withdrawn,{root}"))));
    singles.push(("withdraw", "refused,35,0".to_string()));
    let singles: Vec<(&str, &str)> = singles.iter().map(|(c, a)| (*c, a.as_str())).collect();
    expect(HOUSE, HOUSE_ESTIMATE, &singles);
}

/// "A bring that was not refused, directly followed by a withdrawal, leaves
/// the state equal to the one before"; what is refused keeps it.
#[test]
fn bring_and_withdraw_leave_the_state() {
    let arrival = |words: &str| rows(words.trim_start_matches("bring ").trim_end_matches(" ."));
    let (clerk, taker) = (arrival(BRING_CLERK), arrival(BRING_TAKER));
    let mut state = State::start(rows(HOUSE).as_bytes(), rows(HOUSE_ESTIMATE).as_bytes()).unwrap();
    let both = |state: &mut State, text: &str, root: u8| {
        let before = state.clone();
        assert_eq!(state.bring(text.as_bytes()), Ok(root));
        assert_ne!(*state, before);
        assert_eq!(state.withdraw(), Ok(root));
        assert_eq!(*state, before);
    };
    let refused = |state: &mut State, number: u8| {
        let before = state.clone();
        let refusal = state.withdraw().unwrap_err();
        assert_eq!((refusal.number, refusal.row), (number, 0));
        assert_eq!(*state, before);
    };
    refused(&mut state, 35);
    both(&mut state, &clerk, 3);
    assert_eq!(state.bring(clerk.as_bytes()), Ok(3));
    both(&mut state, &taker, 6);
    state.step(0, 0, 0).unwrap();
    state.step(1, 0, 3).unwrap();
    refused(&mut state, 36);
    both(&mut state, &taker, 6);
    state.step(1, 0, 0).unwrap();
    refused(&mut state, 36);
    both(&mut state, &clerk, 6);
    // Both numbers are given to other lines than before.
    state.step(1, 0, 0).unwrap();
    assert_eq!(state.withdraw(), Ok(3));
    assert_eq!(state.bring(taker.as_bytes()), Ok(3));
    both(&mut state, &clerk, 5);
}

/// Bytes behind the last row are no command, though they spell one.
#[test]
fn withdraw_without_the_end_of_a_row() {
    let out = lines_of(&script::run(b"N,1\n.\n.\nbring\nQ,0,nil\n.\nwithdraw"));
    assert_eq!(out, ["started", "brought,0", "bad command", "state,0,0,1", "lines,1", "roots,0"]);
}
