//! The program: what it prints, and its status.
use std::process::Command;

/// The status, what stands on standard output, and what on standard error.
fn run(arguments: &[&str]) -> (Option<i32>, String, String) {
    let folder = concat!(env!("CARGO_MANIFEST_DIR"), "/tests");
    let output = Command::new(env!("CARGO_BIN_EXE_storkvanity")).args(arguments).current_dir(folder).output().unwrap();
    let text = |bytes| String::from_utf8(bytes).unwrap();
    (output.status.code(), text(output.stdout), text(output.stderr))
}

/// A scratch file.
fn scratch(name: &str) -> String {
    format!("{}/{name}", env!("CARGO_TARGET_TMPDIR"))
}

#[test]
fn check_prints_a_line_for_each_file() {
    assert_eq!(run(&["check", "drawing.svg"]), (Some(0), "drawing.svg: 0: taken\n".to_string(), String::new()));
    let (status, lines, errors) = run(&["check", "drawing.svg", "program.rs", "nowhere.svg", "drawing.svg"]);
    let lines: Vec<&str> = lines.lines().collect();
    assert_eq!((status, lines.len(), errors.as_str()), (Some(1), 4, ""));
    assert_eq!(lines[1], "program.rs: no XML: line 1, column 1: unknown token");
    assert!(lines[2].starts_with("nowhere.svg: cannot be read: "));
    assert_eq!(lines[3], "drawing.svg: 0: taken");
}

#[test]
fn a_refused_drawing_has_its_number_and_cause() {
    let file = scratch("deep.svg");
    std::fs::write(&file, "<g>".repeat(2049) + &"</g>".repeat(2049)).unwrap();
    let answer = run(&["check", &file]);
    assert_eq!(answer.0, Some(1));
    assert!(answer.1.ends_with(".svg: 5: More than 2,048 elements are open at once.\n"));
}

/// What a command prints that goes well.
fn printed(arguments: &[&str]) -> String {
    let (status, lines, errors) = run(arguments);
    assert_eq!((status, errors.as_str()), (Some(0), ""), "{arguments:?}");
    lines
}

static GRIPPER: &str = "../../examples/gripper.svg";

#[test]
fn check_builds_too() {
    let file = scratch("top.svg");
    std::fs::write(&file, "<g xmlns='http://www.w3.org/2000/svg'/>").unwrap();
    let answer = run(&["check", &file]);
    assert_eq!(answer.0, Some(1));
    assert!(answer.1.ends_with(".svg: 21: Everything was read, but the top element is not `svg`.\n"), "{}", answer.1);
}

#[test]
fn a_style_sheet_that_cannot_be_matched_is_told() {
    let file = scratch("selector.svg");
    std::fs::write(&file, format!("<svg><style>{}g {{ x: 1 }}</style></svg>", "g > ".repeat(1024))).unwrap();
    let (status, lines, _) = run(&["check", &file]);
    assert_eq!(status, Some(1));
    assert!(lines.ends_with("selector.svg: line 1, column 6: a selector of the style sheet has too many parts\n"), "{lines}");
}

#[test]
fn tree_shows_nodes_and_where_values_come_from() {
    let lines = printed(&["tree", GRIPPER]);
    let lines: Vec<&str> = lines.lines().collect();
    assert_eq!(lines[..2], ["   1 svg", "         viewBox=\"0 0 240 120\" (attribute)"]);
    for line in ["           fill=\"orange\" (rule, important)", "  10       tspan", "  11         \"12.5 kg\""] {
        assert!(lines.contains(&line), "{line}");
    }
    let lines = printed(&["tree", "drawing.svg"]);
    assert!(lines.contains("           font-variant=\"normal\" (fixed)\n"), "{lines}");
    assert!(!lines.contains('\x1b'));
}

#[test]
fn texts_tell_who_holds_or_quotes_them() {
    let lines = printed(&["texts", GRIPPER]);
    let wanted = "9: 7 bytes in svg > g#gripper > text > tspan#load: \"12.5 kg\"\n   \
                  node 8, svg > g#gripper > text\n   node 14, svg > g#cup > text\n10: 3 bytes in svg > g#gripper: \"\\n  \"\n";
    assert!(lines.contains(wanted), "{lines}");
}

#[test]
fn exchange_shows_what_is_changed() {
    let lines = printed(&["exchange", GRIPPER, "9", "08.0 kg"]);
    let lines: Vec<&str> = lines.lines().collect();
    assert_eq!(lines[0], "node 11, svg > g#gripper > text > tspan#load > text node: \"12.5 kg\" becomes \"08.0 kg\"");
    assert_eq!(lines[1], "node 17, svg > g#cup > text > tspan > text node: \"12.5 kg\" becomes \"08.0 kg\"");
    assert!(lines.len() == 3 && lines[2].starts_with("A fresh build of the changed drawing has the same tables: all 240 words"));
    assert!(printed(&["exchange", GRIPPER, "1", "abc"]).starts_with("Nothing in the tree is changed.\n"));
    for (number, new, words) in [
        ("0", "a", "30: There is no text with that number."),
        ("17", "a", " This drawing has 16 texts."),
        ("2", "a", "31: The text stands inside an element named `style`."),
        ("9", "8 kg", "32: The new text has another length in bytes than the old one. The old text has 7 bytes, the new one 4."),
    ] {
        let (status, lines, errors) = run(&["exchange", GRIPPER, number, new]);
        assert_eq!((status, lines.as_str(), errors.lines().count()), (Some(1), "", 1));
        assert!(errors.contains(words), "{errors}");
    }
}

#[test]
fn questions_go_by_names() {
    let ask = |words: &[&str]| printed(&[&["ask", GRIPPER], words].concat());
    assert_eq!(ask(&["attribute", "#cup", "fill"]), "fill=\"orange\" (rule, important) of node 12, svg > g#cup\n");
    assert_eq!(ask(&["attribute", "5", "fill"]), "none\n");
    assert_eq!(ask(&["find", "5", "fill"]), "fill=\"#456\" (rule) of node 4, svg > g#gripper\n");
    assert_eq!(ask(&["id", "load"]), "node 10, svg > g#gripper > text > tspan#load\n");
    assert_eq!(ask(&["id", "nobody"]), "none\n");
    assert_eq!(ask(&["text", "#load"]), "\"12.5 kg\"\n");
    assert_eq!(ask(&["text", "99"]), "\"\"\n");
    for (words, told) in [
        (["attribute", "99", "fill"], "41: There is no node with that index. The nodes of this tree are 0 to 17."),
        (["attribute", "1", "unknown"], "42: There is no attribute with that code. The panel knows no attribute 'unknown'."),
        (["find", "#nobody", "fill"], "the tree has no element with the id 'nobody'"),
    ] {
        let (status, lines, errors) = run(&[&["ask", GRIPPER], &words[..]].concat());
        assert_eq!((status, lines, errors), (Some(1), String::new(), format!("storkvanity: {told}\n")));
    }
}

/// A drawing in words is that of the SVG file: to the tree, and to the bytes.
#[test]
fn script_and_back() {
    let lines = printed(&["script", GRIPPER]);
    assert!(lines.starts_with("other\nopen svg (svg)\n  attribute viewBox (none) \"0 0 240 120\"\n"), "{lines}");
    assert!(
        lines.contains("    attribute clip-path (none) \"url(#window)\"\n      reading func-iri \"window\" at 5\n"),
        "{lines}"
    );
    assert!(lines.ends_with("close\n# check: 0: taken\n"), "{lines}");
    let (file, out) = (scratch("gripper.script"), scratch("out"));
    std::fs::write(&file, &lines).unwrap();
    assert_eq!(printed(&["tree", &file]), printed(&["tree", GRIPPER]));
    let bytes = |name: &str| {
        let written = printed(&["bytes", name, &out]);
        assert_eq!(written.lines().count(), 2);
        [".commands", ".characters"].map(|end| std::fs::read(out.clone() + end).unwrap())
    };
    assert_eq!(bytes(&file), bytes(GRIPPER));
}

#[test]
fn check_of_a_script_by_hand() {
    let file = scratch("hand.script");
    let see = |lines: &str| {
        std::fs::write(&file, lines).unwrap();
        run(&["script", &file])
    };
    let (status, lines, _) = see("open svg (svg)\n  open #60 (svg)\n  close\nclose\n");
    assert_eq!(status, Some(1));
    assert!(lines.starts_with("open svg (svg)\n  open #60 (svg)\n# check, command 2: 3: A command names an element"), "{lines}");
    assert!(see("open svg (svg)\n").1.contains("# check, at the end: 4: "));
    let (status, lines, errors) = see("open svg (svg)\n  text 12 kg\nclose\n");
    assert_eq!((status, lines.as_str()), (Some(1), ""));
    assert_eq!(errors, format!("storkvanity: {file}: line 2, column 8: a string in quotes is missing\n"));
    assert!(run(&["check", &file]).1.ends_with("hand.script: line 2, column 8: a string in quotes is missing\n"));
}

/// The manual's tables are the one source: `explain` has each of their sentences.
#[test]
fn explain_has_the_manuals_words() {
    let manual = include_str!("../../docs/MANUAL.md");
    let mut count = 0;
    for row in manual.lines().filter(|line| line.starts_with("| ") && line.as_bytes()[2].is_ascii_digit()) {
        let cells: Vec<&str> = row.trim_matches('|').split('|').map(str::trim).collect();
        let words = printed(&["explain", cells[0].split(' ').next().unwrap()]);
        assert!(cells[1..].iter().all(|cell| words.contains(cell)), "{words}");
        count += 1;
    }
    assert_eq!((count, printed(&["explain", "0"]).as_str()), (22, "0: Done.\n"));
    assert_eq!(run(&["explain", "10"]).2, "storkvanity: the panel never answers with 10\n");
}

#[test]
fn wrong_arguments_get_one_sentence() {
    for (arguments, words) in [
        (&[][..], "there is no command (storkvanity --help tells what there is)"),
        (&["unknown"], "there is no command 'unknown' (storkvanity --help tells what there is)"),
        (&["check"], "check is asked as: storkvanity check FILE.svg.."),
        (&["tree"], "tree is asked as: storkvanity tree FILE.svg"),
        (&["tree", "a.svg", "b.svg"], "tree is asked as: storkvanity tree FILE.svg"),
        (&["exchange", GRIPPER, "1"], "exchange is asked as: storkvanity exchange FILE.svg NUMBER NEW"),
        (&["exchange", GRIPPER, "one", "a"], "'one' is no number"),
        (&["ask", GRIPPER, "who"], "there is no question 'who': there are attribute, find, id and text"),
        (&["ask", GRIPPER, "attribute", "1"], "this question needs a node and the name of an attribute"),
        (&["ask", GRIPPER, "text"], "this question needs a node"),
        (&["explain", "-1"], "'-1' is no number"),
    ] {
        assert_eq!(run(arguments), (Some(2), String::new(), format!("storkvanity: {words}\n")));
    }
    let (status, lines, errors) = run(&["tree", "nowhere.svg"]);
    assert_eq!((status, lines.as_str(), errors.lines().count()), (Some(1), "", 1));
    assert!(errors.starts_with("storkvanity: nowhere.svg: cannot be read: "));
}

#[test]
fn help_for_each_command() {
    let all = printed(&["--help"]);
    let names = ["check", "tree", "texts", "exchange", "ask", "script", "bytes", "explain"];
    for name in names {
        assert!(all.contains(&format!("\nstorkvanity {name} ")), "{name}");
        assert!(printed(&[name, "--help"]).starts_with(&format!("storkvanity {name} ")), "{name}");
    }
    assert_eq!(all.matches("\nstorkvanity ").count(), names.len() + 1);
    assert_eq!((printed(&["-h"]), printed(&["help"])), (all.clone(), all));
}
