//! When an answer has colour: where it is wanted, and on a terminal that takes it.

use std::path::Path;
use std::process::Command;

const PROGRAM: &str = env!("CARGO_BIN_EXE_starshackle");
const WHOLE: &str = concat!(env!("CARGO_MANIFEST_DIR"), "/../../examples/whole.store");

/// The text of a call, and without its colours.
fn answer(command: &mut Command) -> (String, String) {
    let text = String::from_utf8(command.output().unwrap().stdout).unwrap().replace("\r\n", "\n");
    let mut plain = String::new();
    for (number, part) in text.split("\x1B[").enumerate() {
        plain += if number == 0 { part } else { part.split_once('m').unwrap().1 };
    }
    (text, plain)
}

fn run(arguments: &[&str]) -> Command {
    let mut command = Command::new(PROGRAM);
    command.arg("run").args(arguments).arg(WHOLE).env_remove("NO_COLOR").env("TERM", "xterm");
    command
}

/// The same on a terminal that `script` makes.
fn on_terminal(arguments: &str) -> Command {
    let mut command = Command::new("script");
    command.args(["-qec", &format!("'{PROGRAM}' run {arguments} '{WHOLE}'"), "/dev/null"]);
    command.env_remove("NO_COLOR").env("TERM", "xterm").stdin(std::process::Stdio::null());
    command
}

#[test]
fn colour_where_it_is_wanted() {
    let (text, plain) = answer(&mut run(&["--color", "always"]));
    let without = answer(&mut run(&["--color=never"])).0;
    let heading = ", each in the colour of the element that wrote it last (not proved)";
    assert_eq!(plain.replace(heading, ""), without);
    assert!(text.starts_with("\x1B[1;32mdone (verdict 0)\x1B[0m\n"));
    let third = "\x1B[30;104mA3\x1B[0m";
    assert_eq!(text.matches(third).count(), 2, "element 2 in the table and in the window");
    assert_eq!(text.matches("\x1B[30;103mA2\x1B[0m").count(), 1, "element 1 is covered");
    assert_eq!(answer(&mut run(&[])).0, without);
    let always = &mut run(&["--color", "always"]);
    assert_eq!(answer(always.env("NO_COLOR", "1").env("TERM", "dumb")).0, text);
    assert!(!answer(&mut run(&["--color", "always", "--json"])).0.contains('\x1B'));
}

#[test]
fn colour_on_a_terminal() {
    if !Path::new("/usr/bin/script").exists() {
        return; // then nothing here makes a terminal
    }
    let has_color = |command: &mut Command| {
        let (text, plain) = answer(command);
        assert!(plain.starts_with("done (verdict 0)\n"), "{text}");
        text.contains('\x1B')
    };
    assert!(has_color(&mut on_terminal("")));
    assert!(has_color(&mut on_terminal("--color auto")));
    assert!(has_color(on_terminal("").env("NO_COLOR", "")));
    assert!(!has_color(on_terminal("").env("NO_COLOR", "1")));
    assert!(!has_color(on_terminal("").env("TERM", "dumb")));
    assert!(!has_color(&mut on_terminal("--color never")));
    assert!(has_color(on_terminal("--color always").env("NO_COLOR", "1")));
}
