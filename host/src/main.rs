//! The program `storkvanity`: shows what the panel makes of SVG files.
#![forbid(unsafe_code)]
mod help;
mod paint;
mod show;

use paint::Paint;
use std::ffi::{OsStr, OsString};
use std::io::Write;
use std::os::unix::ffi::OsStrExt;
use std::path::Path;
use std::process::ExitCode;
use storkvanity::refused::{self, Cause};
use storkvanity::{check, spell, Drawing, Refusal, Tree};

/// Why a command did not do what was asked.
enum Failure {
    /// The arguments cannot be followed.
    Arguments(String),
    /// A file, a refusal, or something else that is told in words.
    Words(String),
    /// What was to be said is said already.
    Said,
    /// The output cannot be written.
    Output,
}

impl From<std::io::Error> for Failure {
    fn from(_: std::io::Error) -> Failure {
        Failure::Output
    }
}

type Done = Result<(), Failure>;

fn main() -> ExitCode {
    let arguments: Vec<OsString> = std::env::args_os().skip(1).collect();
    let arguments: Vec<&OsStr> = arguments.iter().map(OsString::as_os_str).collect();
    match run(&arguments) {
        Ok(()) => ExitCode::SUCCESS,
        Err(Failure::Arguments(words)) => {
            eprintln!("storkvanity: {words}");
            ExitCode::from(2)
        }
        Err(Failure::Words(words)) => {
            eprintln!("storkvanity: {words}");
            ExitCode::FAILURE
        }
        Err(Failure::Said | Failure::Output) => ExitCode::FAILURE,
    }
}

fn run(arguments: &[&OsStr]) -> Done {
    let (name, rest) = match arguments {
        [] => return wrong("there is no command (storkvanity --help tells what there is)"),
        [name, rest @ ..] => (name.to_str().unwrap_or("?"), rest),
    };
    if is_help(name) || name == "help" && rest.is_empty() {
        return print(&help::all());
    }
    let command = match help::COMMANDS.iter().find(|command| command.name == name) {
        Some(command) => command,
        None => return wrong(&format!("there is no command '{name}' (storkvanity --help tells what there is)")),
    };
    if rest.iter().any(|argument| argument.to_str().map_or(false, is_help)) {
        return print(&command.help());
    }
    match (name, rest) {
        ("check", [_, ..]) => check_all(rest),
        ("tree", [file]) => print(&show::tree(&load_tree(file)?, Paint::of_output())),
        ("texts", [file]) => print(&show::texts(&load_tree(file)?).map_err(refused)?),
        ("exchange", [file, number, new]) => exchange(file, number, new),
        ("ask", [file, question, words @ ..]) => ask(file, question, words),
        ("script", [file]) => script(file),
        ("bytes", [file, out]) => bytes(file, out),
        ("explain", [number]) => explain(number),
        _ => wrong(&format!("{name} is asked as: storkvanity {}", command.usage())),
    }
}

fn is_help(word: &str) -> bool {
    matches!(word, "--help" | "-h")
}

/// What is refused when a question is asked, with what the tree and the lists have.
fn not_asked<'a>(tree: &'a Tree, name: &'a str) -> impl Fn(Refusal) -> Failure + 'a {
    move |refusal| {
        let more = match refusal.number() {
            41 => format!(" The nodes of this tree are 0 to {}.", tree.len() - 1),
            42 => format!(" The panel knows no attribute '{name}'."),
            _ => String::new(),
        };
        Failure::Words(format!("{refusal}{more}"))
    }
}

/// One clear sentence about arguments that cannot be followed.
fn wrong(words: &str) -> Done {
    Err(Failure::Arguments(words.to_string()))
}

fn print(words: &str) -> Done {
    Ok(std::io::stdout().write_all(words.as_bytes())?)
}

fn refused(refusal: Refusal) -> Failure {
    Failure::Words(refusal.to_string())
}

/// The drawing of a file, or why there is none. A file whose name ends with .script has a drawing in words.
fn load(file: &OsStr) -> Result<Drawing, String> {
    let bytes = std::fs::read(file).map_err(|error| format!("cannot be read: {error}"))?;
    if Path::new(file).extension() == Some(OsStr::new("script")) {
        let text = String::from_utf8(bytes).map_err(|_| "the file is not written in UTF-8".to_string())?;
        return spell::read(&text).map_err(|fault| fault.to_string());
    }
    Drawing::from_bytes(&bytes).map_err(|fault| format!("{}{fault}", if fault.is_no_xml { "no XML: " } else { "" }))
}

/// What goes wrong with a file.
fn told(file: &OsStr) -> impl Fn(String) -> Failure + '_ {
    move |words| Failure::Words(format!("{}: {words}", Path::new(file).display()))
}

/// The tree of a file.
fn load_tree(file: &OsStr) -> Result<Tree, Failure> {
    Tree::build(load(file).map_err(told(file))?).map_err(|refusal| told(file)(refusal.to_string()))
}

/// A line for each file. On a terminal many files have a bar of how far the work is.
fn check_all(files: &[&OsStr]) -> Done {
    let bar = files.len() > 20 && paint::is_terminal(2) && !paint::is_terminal(1);
    let mut all_taken = true;
    for (place, file) in files.iter().enumerate() {
        if bar {
            eprint!("\r{}", paint::bar(place, files.len()));
        }
        let answer = check_one(file);
        all_taken &= answer.is_ok();
        print(&format!("{}: {}\n", Path::new(file).display(), answer.unwrap_or_else(|words| words)))?;
    }
    if bar {
        eprintln!("\r{}", paint::bar(files.len(), files.len()));
    }
    all_taken.then_some(()).ok_or(Failure::Said)
}

/// What the panel says of one file, or why it is not asked.
fn check_one(file: &OsStr) -> Result<String, String> {
    let drawing = load(file)?;
    check(drawing.script(), drawing.characters()).map_err(|refusal| refusal.to_string())?;
    Tree::build(drawing).map_err(|refusal| refusal.to_string())?;
    Ok("0: taken".to_string())
}

/// Exchanges a text, shows what is changed, and compares with a fresh build.
fn exchange(file: &OsStr, number: &OsStr, new: &OsStr) -> Done {
    let number = as_number(number)?;
    let before = load_tree(file)?;
    let mut after = before.clone();
    after.exchange(number, new.as_bytes()).map_err(|refusal| {
        let texts = storkvanity::texts::texts(before.drawing());
        let old = texts.get((number as usize).wrapping_sub(1)).map(|text| text.place.len());
        let more = match (refusal.number(), old) {
            (32, Some(old)) => format!(" The old text has {old} bytes, the new one {}.", new.len()),
            (30, _) => format!(" This drawing has {} texts.", texts.len()),
            _ => String::new(),
        };
        Failure::Words(format!("{refusal}{more}"))
    })?;
    print(&show::changes(&before, &after, Paint::of_output()))?;
    let fresh = Tree::build(after.drawing().clone()).map_err(refused)?;
    if fresh != after {
        return Err(Failure::Words("a fresh build of the changed drawing has other tables".to_string()));
    }
    let tables = after.tables();
    print(&format!(
        "A fresh build of the changed drawing has the same tables: all {} words of nodes, {} words of attributes and {} bytes of text.\n",
        tables.nodes.len(),
        tables.attributes.len(),
        tables.text.len()
    ))
}

/// A number of the arguments.
fn as_number(word: &OsStr) -> Result<u32, Failure> {
    let number = word.to_str().and_then(|word| word.parse().ok());
    number.ok_or_else(|| Failure::Arguments(format!("'{}' is no number", word.to_string_lossy())))
}

/// The four questions.
fn ask(file: &OsStr, question: &OsStr, words: &[&OsStr]) -> Done {
    let words: Vec<&str> = words.iter().map(|word| word.to_str().unwrap_or("?")).collect();
    let answer = match (question.to_str().unwrap_or("?"), &words[..]) {
        ("attribute", [node, name]) => {
            let tree = load_tree(file)?;
            let entry = tree.attribute(node_of(&tree, node)?, name).map_err(not_asked(&tree, name))?;
            entry.map(|entry| show::entry(&tree, entry))
        }
        ("find", [node, name]) => {
            let tree = load_tree(file)?;
            let entry = tree.find_attribute(node_of(&tree, node)?, name).map_err(not_asked(&tree, name))?;
            entry.map(|entry| show::entry(&tree, entry))
        }
        ("id", [id]) => {
            let tree = load_tree(file)?;
            tree.element_by_id(id).map_err(refused)?.map(|node| show::place(&tree, node))
        }
        ("text", [node]) => {
            let tree = load_tree(file)?;
            Some(format!("{:?}", tree.text(node_of(&tree, node)?)))
        }
        ("attribute" | "find", _) => return wrong("this question needs a node and the name of an attribute"),
        ("id", _) => return wrong("this question needs an id"),
        ("text", _) => return wrong("this question needs a node"),
        (other, _) => return wrong(&format!("there is no question '{other}': there are attribute, find, id and text")),
    };
    print(&(answer.unwrap_or_else(|| "none".to_string()) + "\n"))
}

/// A node by its number, or behind `#` by its id.
fn node_of(tree: &Tree, word: &str) -> Result<u32, Failure> {
    match word.strip_prefix('#') {
        None => as_number(OsStr::new(word)),
        Some(id) => {
            let node = tree.element_by_id(id).map_err(refused)?;
            node.ok_or_else(|| Failure::Words(format!("the tree has no element with the id '{id}'")))
        }
    }
}

/// The drawing in words. What check says of it stands in a comment: behind the command that it is refused for, or at the end.
fn script(file: &OsStr) -> Done {
    let drawing = load(file).map_err(told(file))?;
    let mut lines = spell::lines(drawing.script(), drawing.characters());
    let refused = refused::refused(drawing.script(), drawing.characters());
    match &refused {
        None => lines.push("# check: 0: taken\n".to_string()),
        Some((refusal, Cause::Command(number))) => lines.insert(*number, format!("# check, command {number}: {refusal}\n")),
        Some((refusal, Cause::End)) => lines.push(format!("# check, at the end: {refusal}\n")),
        Some((refusal, Cause::Size)) => lines.push(format!("# check: {refusal}\n")),
    }
    print(&lines.concat())?;
    refused.is_none().then_some(()).ok_or(Failure::Said)
}

/// Writes the commands and the characters of a drawing to two files.
fn bytes(file: &OsStr, out: &OsStr) -> Done {
    let drawing = load(file).map_err(told(file))?;
    for (end, bytes) in [(".commands", drawing.script()), (".characters", drawing.characters())] {
        let mut name = out.to_os_string();
        name.push(end);
        std::fs::write(&name, bytes).map_err(|error| told(&name)(format!("cannot be written: {error}")))?;
        print(&format!("{}: {} bytes\n", Path::new(&name).display(), bytes.len()))?;
    }
    Ok(())
}

/// The manual's words for a number.
fn explain(word: &OsStr) -> Done {
    let number = as_number(word)?;
    if number == 0 {
        return print("0: Done.\n");
    }
    match Refusal::explain(number) {
        Some(words) => print(&words),
        None => Err(Failure::Words(format!("the panel never answers with {number}"))),
    }
}
