//! Net M of document 01 and helpers for texts and scripts written as words.

#![allow(dead_code)]

pub const NET_M: &str = "N,6 R,s0,s0,i R,s0,s1,e R,s1,s0,o R,s1,s2,oir D,0,s0,o D,0,s2,r \
    D,1,s2,or T,s2,s3,s4 T,s2,s3,s5 L,s0,0 L,s1,6 Q,0,eval,1,s1,3,0 Q,1,in,2,self,!u0 Q,2,nil \
    Q,3,read,4,s2,s3,!u1 Q,4,out,5,s0,u1 Q,5,nil Q,6,accept,7,1 Q,7,nil";

pub const ESTIMATE_M: &str = "B,u0,s4 B,u0,s5 B,u1,s4 B,u1,s5 A,s0,s4 A,s0,s5 A,s2,s3,s4 \
    A,s2,s3,s5 E,s1,s0,o E,s1,s2,r";

/// One row for each word.
pub fn rows(words: &str) -> String {
    words.split_whitespace().map(|word| format!("{word}\n")).collect()
}

pub fn without(words: &str, row: &str) -> String {
    assert!(words.split_whitespace().any(|word| word == row));
    words.split_whitespace().filter(|&word| word != row).collect::<Vec<_>>().join(" ")
}

/// The listing of a net and an estimate, its rows parted by blanks.
pub fn listing(net: &str, estimate: &str) -> String {
    text_listing(&format!("{}.\n{}", rows(net), rows(estimate)))
}

pub fn text_listing(input: &str) -> String {
    let out = String::from_utf8(reference::listing::list(input.as_bytes())).unwrap();
    assert!(out.ends_with('\n'));
    out.trim_end().replace('\n', " ")
}

/// The rows that a script prints.
pub fn run(net: &str, estimate: &str, commands: &str) -> Vec<String> {
    let input = format!("{}.\n{}.\n{}", rows(net), rows(estimate), rows(commands));
    lines_of(&reference::script::run(input.as_bytes()))
}

pub fn lines_of(out: &[u8]) -> Vec<String> {
    String::from_utf8(out.to_vec()).unwrap().lines().map(str::to_string).collect()
}

/// Runs commands and compares each answer; gives back the rows of the state.
pub fn expect(net: &str, estimate: &str, commands: &[(&str, &str)]) -> Vec<String> {
    let words: Vec<&str> = commands.iter().map(|(command, _)| *command).collect();
    let out = run(net, estimate, &words.join(" "));
    assert_eq!(out[0], "started");
    for (at, (command, answer)) in commands.iter().enumerate() {
        assert_eq!(out[at + 1], *answer, "command {at}: {command}");
    }
    out[commands.len() + 1..].to_vec()
}
