//! Makes a drawing smaller as long as it still shows a difference.
use crate::commands::{Bytes, Command, read, write};
use std::time::{Duration, Instant};

/// The commands from an open to its close.
fn element(commands: &[Command], open: usize) -> usize {
    let mut depth = 0;
    for (k, command) in commands.iter().enumerate().skip(open) {
        match command {
            Command::Open { .. } => depth += 1,
            Command::Close => depth -= 1,
            _ => {}
        }
        if depth == 0 {
            return k;
        }
    }
    commands.len() - 1
}

/// The end of what belongs to a command: a value's readings, an open's attributes and declarations.
fn belongings(commands: &[Command], at: usize) -> usize {
    let more = |c: &Command| match commands[at] {
        Command::Open { .. } => {
            matches!(c, Command::Attribute { .. } | Command::Declaration { .. } | Command::Reading { .. })
        }
        Command::Attribute { .. } | Command::Declaration { .. } => matches!(c, Command::Reading { .. }),
        _ => false,
    };
    at + 1 + commands[at + 1..].iter().take_while(|c| more(c)).count()
}

fn without(commands: &[Command], from: usize, to: usize) -> Vec<Command> {
    [&commands[..from], &commands[to..]].concat()
}

/// Shorter strings in place of a command's own.
fn shorter(command: &Command) -> Vec<Command> {
    let cut = |value: &[u8]| -> Vec<Vec<u8>> {
        let n = value.len();
        let parts = [0..0, 0..n / 2, n / 2..n, 1.min(n)..n, 0..n.saturating_sub(1)];
        parts.into_iter().filter(|part| part.len() < n).map(|part| value[part].to_vec()).collect()
    };
    match command {
        Command::Text(text) => cut(text).into_iter().map(Command::Text).collect(),
        Command::Attribute { name, namespace, value } => {
            cut(value).into_iter().map(|value| Command::Attribute { name: *name, namespace: *namespace, value }).collect()
        }
        Command::Declaration { name, important, value } => {
            cut(value).into_iter().map(|value| Command::Declaration { name: *name, important: *important, value }).collect()
        }
        _ => vec![],
    }
}

/// Smaller lists of commands, the smallest first.
fn candidates(commands: &[Command], at: usize) -> Vec<Vec<Command>> {
    let mut all = Vec::new();
    if let Command::Open { .. } = commands[at] {
        let close = element(commands, at);
        all.push(without(commands, at, close + 1));
        let unwrapped = without(commands, close, close + 1);
        all.push(without(&unwrapped, at, belongings(&unwrapped, at)));
        return all;
    }
    if commands[at] == Command::Close {
        return all;
    }
    all.push(without(commands, at, belongings(commands, at)));
    for short in shorter(&commands[at]) {
        let mut next = commands.to_vec();
        next[at] = short;
        all.push(next);
    }
    all
}

/// A smaller drawing of which `wrong` holds too. It stops after some seconds.
pub fn smaller(bytes: &Bytes, wrong: impl Fn(&Bytes) -> bool) -> Bytes {
    let until = Instant::now() + Duration::from_secs(20);
    let mut commands = match read(bytes) {
        Some(commands) => commands,
        None => {
            let wrong = |s: &[u8], c: &[u8]| wrong(&Bytes { script: s.to_vec(), characters: c.to_vec() });
            let (script, characters) = host::smaller::smaller(&bytes.script, &bytes.characters, wrong);
            return Bytes { script, characters };
        }
    };
    loop {
        let mut shrunk = false;
        let mut at = 0;
        while at < commands.len() && Instant::now() < until {
            match candidates(&commands, at).into_iter().find(|c| wrong(&write(c))) {
                Some(next) => {
                    commands = next;
                    shrunk = true;
                }
                None => at += 1,
            }
        }
        if !shrunk || Instant::now() >= until {
            return write(&commands);
        }
    }
}
