//! README's output of the program is what the program prints.
use std::path::Path;
use std::process::Command;

fn read(file: &str) -> String {
    std::fs::read_to_string(Path::new(env!("CARGO_MANIFEST_DIR")).join("..").join(file)).unwrap()
}

/// The words of a command. Those in quotes stay together.
fn words(command: &str) -> Vec<String> {
    let parts = command.split('\'').enumerate();
    parts
        .flat_map(|(place, part)| match place % 2 {
            0 => part.split_whitespace().map(str::to_string).collect(),
            _ => vec![part.to_string()],
        })
        .collect()
}

/// A command as README shows it, with what it prints.
fn shown(command: &str) -> String {
    let folder = concat!(env!("CARGO_MANIFEST_DIR"), "/..");
    let output = Command::new(env!("CARGO_BIN_EXE_storkvanity")).args(words(command)).current_dir(folder).output().unwrap();
    assert!(output.stderr.is_empty(), "{command}");
    format!("$ storkvanity {command}\n{}", String::from_utf8(output.stdout).unwrap())
}

/// The demo of host/build: its commands, one after another, and what they print.
#[test]
fn the_first_command() {
    let script = read("host/build");
    let commands: Vec<&str> = script.lines().filter_map(|l| l.strip_prefix("    show \"")?.strip_suffix('"')).collect();
    assert_eq!(commands.len(), 2);
    let demo =
        "```\n$ host/build demo\n".to_string() + &commands.iter().map(|command| shown(command)).collect::<String>() + "```\n";
    assert!(read("README.md").contains(&demo), "README has not:\n{demo}");
}

/// Every other command that README shows.
#[test]
fn commands_in_readme() {
    let readme = read("README.md");
    let commands: Vec<&str> = readme.lines().filter_map(|line| line.strip_prefix("$ storkvanity ")).collect();
    for command in &commands {
        let shown = shown(command);
        assert!(
            readme.contains(&(shown.clone() + "$ ")) || readme.contains(&(shown.clone() + "```\n")),
            "README has not:\n{shown}"
        );
    }
    assert!(commands.len() > 4);
}
