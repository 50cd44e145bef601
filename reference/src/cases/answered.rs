//! Scripts written by hand, with the row that each command prints.

/// Net, estimate, and commands with their answers.
pub struct Script {
    begin: String,
    commands: Vec<(String, String)>,
}

impl Script {
    /// `begin` ends with the row `.` behind the estimate.
    pub fn new(begin: &str, commands: &[(&str, &str)]) -> Script {
        let owned = |&(command, row): &(&str, &str)| (command.to_string(), row.to_string());
        Script { begin: begin.to_string(), commands: commands.iter().map(owned).collect() }
    }

    pub fn text(&self) -> String {
        let rows: String =
            self.commands.iter().map(|(command, _)| format!("{command}\n")).collect();
        format!("{}{rows}", self.begin)
    }
}

/// The rows that a script prints.
#[cfg(test)]
pub fn printed(text: &str) -> Vec<String> {
    let out = String::from_utf8(crate::script::run(text.as_bytes())).unwrap();
    out.lines().map(str::to_string).collect()
}

#[cfg(test)]
pub fn hold_to_answers(scripts: &[Script]) {
    for (at, script) in scripts.iter().enumerate() {
        let rows = printed(&script.text());
        assert_eq!(rows[0], "started");
        for ((command, row), printed) in script.commands.iter().zip(&rows[1..]) {
            assert_eq!(printed, row, "script {at}, {command}");
        }
        assert!(rows[script.commands.len() + 1].starts_with("state,"), "script {at}");
    }
}
