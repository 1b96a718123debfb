//! The scripts in `scripts/` print what stands beside them in `.out`, which was checked against documents 01 and 02.

use reference::console;
use reference::Command;

const SCRIPTS: [(&str, &[u8], &str); 7] = [
    ("story", include_bytes!("../../scripts/story.txt"), include_str!("../../scripts/story.out")),
    ("refusals", include_bytes!("../../scripts/refusals.txt"), include_str!("../../scripts/refusals.out")),
    ("forms", include_bytes!("../../scripts/forms.txt"), include_str!("../../scripts/forms.out")),
    ("examples", include_bytes!("../../scripts/examples.txt"), include_str!("../../scripts/examples.out")),
    ("requests", include_bytes!("../../scripts/requests.txt"), include_str!("../../scripts/requests.out")),
    ("refresh", include_bytes!("../../scripts/refresh.txt"), include_str!("../../scripts/refresh.out")),
    ("marks", include_bytes!("../../scripts/marks.txt"), include_str!("../../scripts/marks.out")),
];

#[test]
fn each_prints_what_is_expected() {
    for (name, script, expected) in SCRIPTS {
        let mut output = Vec::new();
        console::run(script, &mut output).unwrap();
        assert_eq!(String::from_utf8(output).unwrap(), expected, "{name}");
    }
}

/// The answers of a script: outcome, and the response without status.
fn answers(output: &str) -> Vec<(usize, &str)> {
    let words = output.lines().map(|line| line.split(' ').collect::<Vec<_>>());
    words.filter_map(|words| Some((words.get(1)?.parse().ok()?, *words.get(3)?))).collect()
}

#[test]
fn refusals_has_each_refusal_and_each_command_once() {
    let answers = answers(SCRIPTS[1].2);
    assert_eq!(answers.len(), 31);
    for number in 1..=21 {
        assert_eq!(answers.iter().filter(|(outcome, _)| *outcome == number).count(), 1, "{number}");
    }
    for command in Command::ALL {
        let header = String::from_utf8_lossy(command.header()).replace('?', "!");
        let accepted = answers.iter().filter(|(outcome, response)| *outcome == 0 && response.starts_with(&header));
        assert_eq!(accepted.count(), 1, "{header}");
    }
}

#[test]
fn the_story_has_each_command_accepted() {
    let answers = answers(SCRIPTS[0].2);
    for command in Command::ALL {
        let header = String::from_utf8_lossy(command.header()).replace('?', "!");
        assert!(answers.iter().any(|(outcome, response)| *outcome == 0 && response.starts_with(&header)), "{header}");
    }
}

/// What `usable 1`, `usable 2` and `usable 3` print after each request of a script that is accepted, where all three are
/// asked.
fn vending(script: &[u8], output: &str) -> Vec<(String, String)> {
    let lines: Vec<&str> = std::str::from_utf8(script).unwrap().lines().collect();
    let printed = |line: usize| output.lines().find_map(|each| each.strip_prefix(&format!("{line} "))).unwrap();
    let places = (0..lines.len()).filter(|place| lines[*place..].starts_with(&["usable 1", "usable 2", "usable 3"]));
    places
        .map(|place| {
            let last = lines[..place].iter().rfind(|line| line.starts_with("send ")).unwrap();
            (last[5..10].to_string(), [1, 2, 3].map(|number| printed(place + number)).join(" "))
        })
        .collect()
}

/// The keys vend on while new ones are on request, until each is loaded again (document 02, N3).
#[test]
fn a_refresh_leaves_keys_vending() {
    let (_, script, output) = SCRIPTS[5];
    let due = [
        ("SM?KL", "no no no"),
        ("SM?KF", "yes yes yes"),
        ("SM?KC", "yes yes yes"),
        ("SM?KR", "yes yes yes"),
        ("SM?KL", "yes no yes"),
        ("SM?KF", "yes yes yes"),
        ("SM?KL", "yes yes no"),
        ("SM?KF", "yes yes yes"),
    ];
    assert_eq!(vending(script, output), due.map(|(request, answers)| (request.to_string(), answers.to_string())));
}

/// The response to the call that a line hands in.
fn response_to(line: usize, output: &str) -> &str {
    let answer = output.lines().find(|answer| answer.split(' ').next() == Some(&line.to_string())).unwrap();
    answer.splitn(4, ' ').nth(3).unwrap()
}

#[test]
fn the_examples_are_answered_as_the_papers_print_them() {
    let (_, script, output) = SCRIPTS[3];
    let lines: Vec<&str> = std::str::from_utf8(script).unwrap().lines().collect();
    let (mut same, mut other) = (0, 0);
    for (place, line) in lines.iter().enumerate() {
        let call = || {
            let next = (place..lines.len()).find(|k| lines[*k].starts_with("send ") || lines[*k].starts_with("raw "));
            response_to(next.unwrap() + 1, output)
        };
        // The papers print some responses without their checksum.
        let is_printed = |text: &str| call() == text || call()[..call().len() - 4] == *text;
        if let Some(text) = line.strip_prefix("# printed: ") {
            assert!(is_printed(text), "line {}: {text} is printed, {} is answered", place + 1, call());
            same += 1;
        } else if let Some(text) = line.strip_prefix("# printed, and not here: ") {
            assert!(!is_printed(text), "line {}: {text} is printed, and answered", place + 1);
            other += 1;
        }
    }
    assert_eq!((same, other), (15, 7));
}
