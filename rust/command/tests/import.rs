//! Files in Cassandra's format: the literature's small problems, every form of statement, and what is said of files that do
//! not fit.

use assert_cmd::Command;
use biidhaqun::{Certifier, Mixture, Model, Points};
use command::cassandra::{fit, read, write};
use reference::{ladder, Rules};
use std::path::{Path, PathBuf};
use std::{fs, str};

fn root() -> PathBuf {
    Path::new(env!("CARGO_MANIFEST_DIR")).join("../..")
}

fn example(name: &str) -> Vec<u8> {
    fs::read(root().join("examples").join(name)).unwrap()
}

/// A file of the literature as the command imports it, the model that the library reads of it, and its start weights.
fn imported(name: &str) -> (String, Model, Vec<u32>) {
    let path = format!("examples/cassandra/{}.POMDP", name);
    let arguments = ["import", &path, "--round"];
    let output = Command::cargo_bin("biidhaqun").unwrap().current_dir(root()).args(arguments).output().unwrap();
    assert_eq!(output.status.code(), Some(0), "{}", str::from_utf8(&output.stderr).unwrap());
    let text = String::from_utf8(output.stdout).unwrap();
    let (model, start) = Model::read(text.as_bytes()).unwrap();
    (text, model, start.weights)
}

/// What is certified of a model at its start, in the lines of `ladder`.
fn certified(model: &Model, start: &[u32], levels: usize) -> String {
    let mut certifier = Certifier::open(model).unwrap();
    let mut lines = String::new();
    for number in 1..=levels {
        let level = certifier.build(&Points::one(start)).unwrap();
        certifier.offer(&level).unwrap();
        let at = certifier.totals(&Mixture::new(start)).unwrap();
        lines.push_str(&format!("{} {} {} {} {}\n", number, at.lower, at.upper, at.gap, at.action));
    }
    lines
}

/// The library certifies what is imported, with the totals of the reference.
#[test]
fn the_literature_is_imported_and_certified() {
    let folder = fs::read_dir(root().join("examples/cassandra")).unwrap();
    let mut names: Vec<String> =
        folder.map(|entry| entry.unwrap().path().file_stem().unwrap().to_str().unwrap().to_string()).collect();
    names.sort();
    assert_eq!(names, ["cheese", "corridor", "crying-baby", "four-by-three", "machine", "tiger"]);
    for name in names {
        let (text, model, start) = imported(&name);
        let lines = certified(&model, &start, 3);
        assert_eq!(lines, ladder(text.as_bytes(), &Rules::default()), "{}", name);
    }
}

#[test]
fn tiger_and_crying_baby_are_those_written_by_hand() {
    for name in ["tiger", "crying-baby"] {
        let (_, model, start) = imported(name);
        let (by_hand, hand_start) = Model::read(&example(&format!("{}.pomdp", name))).unwrap();
        assert_eq!((model, start), (by_hand, hand_start.weights), "{}", name);
    }
}

/// The book's example 20.2: a look ahead from (0.5, 0.5) with the vectors (-3.7, -15) and (-2, -21).
#[test]
fn the_crying_baby_looks_ahead_as_in_its_book() {
    let (_, model, _) = imported("crying-baby");
    let vectors = [[-3.7, -15.0], [-2.0, -21.0]];
    // Feed, sing, ignore.
    for (action, expected) in [-11.8, -14.0, -13.9].into_iter().enumerate() {
        let mut worth: f64 = (0..2).map(|state| 0.5 * model.reward(state, action) as f64 / 100.0).sum();
        for seen in 0..2 {
            let weight = |to: usize| -> f64 {
                let reached: u64 = (0..2).map(|state| model.transition(state, action, to)).sum();
                0.5 * (reached * model.observation(action, to, seen)) as f64 / 1e6
            };
            let best =
                vectors.iter().map(|vector| weight(0) * vector[0] + weight(1) * vector[1]).fold(f64::MIN, f64::max);
            worth += model.discount() as f64 / 1_000.0 * best;
        }
        assert!((worth - expected).abs() < 0.06, "action {}: {}", action, worth);
    }
}

/// The beliefs that the paper has: 1/3, 1/3, 0, 1/3, then after each step east without the goal.
#[test]
fn the_corridor_has_the_beliefs_of_its_paper() {
    let (_, model, _) = imported("corridor");
    let mut belief = vec![1.0 / 3.0, 1.0 / 3.0, 0.0, 1.0 / 3.0];
    for expected in [[0.100, 0.450, 0.000, 0.450], [0.100, 0.164, 0.000, 0.736]] {
        let reached = |to: usize| -> f64 {
            let from = |state: usize| belief[state] * model.transition(state, 0, to) as f64;
            (0..4).map(from).sum::<f64>() * model.observation(0, to, 0) as f64
        };
        let next: Vec<f64> = (0..4).map(reached).collect();
        let total: f64 = next.iter().sum();
        belief = next.into_iter().map(|weight| weight / total).collect();
        for (found, wanted) in belief.iter().zip(expected) {
            assert!((found - wanted).abs() < 0.000_6, "{:?}", belief);
        }
    }
    // Reaching the goal earns 1: expected rewards are its probability.
    assert_eq!((model.reward(1, 0), model.reward(3, 0), model.reward(3, 1)), (90, 10, 90));
}

#[test]
fn the_machine_is_rounded_as_is_said() {
    let (text, model, start) = imported("machine");
    assert_eq!(start, [100, 0, 0]);
    assert_eq!((model.observation(1, 0, 0), model.observation(1, 0, 1)), (903, 97));
    assert_eq!((model.reward(0, 0), model.reward(1, 0)), (90, 48));
    assert_eq!((model.transition(2, 3, 0), model.transition(1, 2, 0)), (1_000, 1_000));
    assert!(
        text.contains("# O: 1 of 12 rows rounded to thousandths that total 1; the largest change is 0.0005"),
        "{}",
        text
    );
    assert!(text.contains("# R: 4 expected rewards rounded to ticks; the largest change is 0.005"), "{}", text);
}

#[test]
fn the_mazes() {
    let (_, cheese, start) = imported("cheese");
    assert_eq!(start, [10, 10, 10, 10, 10, 10, 10, 10, 10, 10, 0]);
    assert_eq!(
        (cheese.transition(6, 1, 10), cheese.transition(0, 2, 1), cheese.transition(10, 3, 4)),
        (1_000, 1_000, 100)
    );
    assert_eq!((cheese.reward(6, 1), cheese.reward(6, 0), cheese.observation(2, 9, 5)), (100, 0, 1_000));
    let (_, maze, start) = imported("four-by-three");
    assert_eq!(start.iter().sum::<u32>(), 100);
    assert_eq!((start[3], start[6]), (0, 0));
    assert_eq!((maze.transition(2, 2, 3), maze.transition(3, 0, 0), maze.transition(3, 0, 1)), (800, 112, 111));
    assert_eq!((maze.reward(0, 0), maze.reward(3, 1), maze.reward(6, 2)), (-4, 100, -100));
}

/// The names are shown in place of numbers, or beside them.
#[test]
fn names_are_shown() {
    let path = Path::new(env!("CARGO_TARGET_TMPDIR")).join("named.pomdp");
    let (text, ..) = imported("tiger");
    fs::write(&path, &text).unwrap();
    let run = |arguments: &[&str]| {
        let output =
            Command::cargo_bin("biidhaqun").unwrap().arg(arguments[0]).arg(&path).args(&arguments[1..]).output();
        let output = output.unwrap();
        String::from_utf8([output.stdout, output.stderr].concat()).unwrap()
    };
    assert!(run(&["check"]).contains("3 actions: listen, open-left, open-right"));
    let levels = run(&["levels", "--levels", "1", "--at", "0,1"]);
    assert!(levels.contains("at 0,1 (tiger-right 1)") && levels.contains("  open-left"), "{}", levels);
    assert!(run(&["levels", "--json"]).contains("\"action_name\": \"listen\""));
    fs::write(&path, text.replace("O: 0 : 1 0.15 0.85", "O: 0 : 1 0.15 0.8")).unwrap();
    assert!(run(&["check"]).contains("O of action listen at state tiger-right totals 0.95"), "{}", run(&["check"]));
}

const HEADERS: &str = "discount: 0.95 values: reward states: left right actions: listen open observations: low high\n";

/// A small model in one form of words.
fn model(statements: &str) -> Model {
    let text = format!("{}{}", HEADERS, statements);
    let fitted = fit(&read(text.as_bytes()).unwrap(), false).unwrap();
    Model::read(write(&fitted, "a test").as_bytes()).unwrap().0
}

/// What is said of a file that does not fit.
fn told(text: &str) -> Vec<String> {
    let wrong = read(text.as_bytes()).and_then(|source| fit(&source, false)).unwrap_err();
    wrong.into_iter().map(|told| told.title).collect()
}

#[test]
fn every_form_of_t_and_o() {
    let rest = "O: * uniform R: open : left : * : * 1";
    let written = model(&format!("T: listen 1 0 0 1 T: open 0.5 0.5 0.5 0.5 {}", rest));
    for statements in [
        "T: listen identity T: open uniform",
        "T: 0 identity T: 1 : * uniform",
        "start: uniform T: * identity T: open : left reset T: open : right reset",
        "start: left start: uniform T: * identity T: open : * reset",
        "T: * identity T: open : * reset",
        "T: * : * : * 0.5 T: listen : left 1.0 0.0 T: listen : 1 : left 0 T:listen:right:right 1",
        "T: listen\n1.0 0\n.0 1e0\nT: open\n0.50000 5e-1\n+.5 0.5",
    ] {
        assert_eq!(model(&format!("{} {}", statements, rest)), written, "{}", statements);
    }
    let written = model("T: * identity O: listen 0.85 0.15 0.15 0.85 O: open 0.5 0.5 0.5 0.5");
    for statements in [
        "O: listen 0.85 0.15 0.15 0.85 O: open uniform",
        "O: * uniform O: listen : left 0.85 0.15 O: 0 : 1 : low 0.15 O: 0 : right : 1 0.85",
        "O: * : * uniform O: listen : 0 : 0 0.85 O: listen : left : high 0.15 O: listen : right 0.15 0.85",
    ] {
        assert_eq!(model(&format!("T: * identity {}", statements)), written, "{}", statements);
    }
}

#[test]
fn a_name_stays_in_its_comment() {
    let text = format!("{}T: * identity O: * uniform", HEADERS);
    let fitted = fit(&read(text.as_bytes()).unwrap(), false).unwrap();
    let plain = write(&fitted, "a b");
    assert_eq!(write(&fitted, "a\nb"), plain);
    assert!(Model::read(plain.as_bytes()).is_ok());
}

#[test]
fn every_form_of_r() {
    let rest = "T: * : * 0.25 0.75 O: * uniform";
    let reward = |statements: &str| {
        let model = model(&format!("{} {}", statements, rest));
        [(0, 0), (0, 1), (1, 0), (1, 1)].map(|(action, state)| model.reward(state, action))
    };
    assert_eq!(reward("R: * : * : * : * -1.5"), [-150; 4]);
    assert_eq!(reward("R: listen : left : right : * 4"), [300, 0, 0, 0]);
    assert_eq!(reward("R: listen : left : right : high 4"), [150, 0, 0, 0]);
    assert_eq!(reward("R: * : right : left 8 0"), [0, 100, 0, 100]);
    assert_eq!(reward("R: open : right : * 8 0"), [0, 0, 0, 400]);
    assert_eq!(reward("R: open : left 8 0 4 4"), [0, 0, 400, 0]);
    // Later statements supersede, cell by cell.
    assert_eq!(reward("R: * : * : * : * 1 R: listen : left : right : * 5"), [400, 100, 100, 100]);
    let costs = format!("{}R: * : * : * : * 2 {}", HEADERS.replace("reward", "cost"), rest);
    let fitted = fit(&read(costs.as_bytes()).unwrap(), false).unwrap();
    assert_eq!(fitted.rewards, [-200; 4]);
}

#[test]
fn every_form_of_start() {
    let start = |statement: &str| {
        let text =
            format!("states: a b c actions: 1 observations: 1 discount: 1\n{} T: 0 identity O: * uniform", statement);
        fit(&read(text.as_bytes()).unwrap(), false).unwrap().start
    };
    assert_eq!(start("start: 0.5 0.25 0.25"), [50, 25, 25]);
    assert_eq!(start("start: uniform"), [34, 33, 33]);
    assert_eq!(start(""), [34, 33, 33]);
    assert_eq!(start("start: b"), [0, 100, 0]);
    assert_eq!(start("start: 2"), [0, 0, 100]);
    assert_eq!(start("start include: a c"), [50, 0, 50]);
    assert_eq!(start("start include: 1 2"), [0, 50, 50]);
    assert_eq!(start("start exclude: a"), [0, 50, 50]);
    assert_eq!(start("start exclude: a 1"), [0, 0, 100]);
}

#[test]
fn what_is_rounded_is_listed() {
    let text = format!(
        "{}start: 0.333 0.667 T: * : * 0.123456789012345678901234567890 0.876543210987654321098765432110 \
         O: * : * 0.9999 0.0001",
        HEADERS.replace("0.95", "0.98765")
    );
    let fitted = fit(&read(text.as_bytes()).unwrap(), false).unwrap();
    assert_eq!((fitted.discount, &fitted.start[..]), (988, &[33, 67][..]));
    assert!(fitted.transitions.iter().all(|row| *row == [123, 877]));
    assert!(fitted.observations.iter().all(|row| *row == [1_000, 0]));
    let changes = fitted.changes.join("\n");
    for part in [
        "discount: 0.98765 became 0.988",
        "start: rounded to hundredths that total 1; the largest change is 0.003 (state left: 0.333 became 0.33)",
        "T: 4 of 4 rows rounded to thousandths that total 1; the largest change is 0.000456789..",
        "O: 4 numbers above 0 became 0",
    ] {
        assert!(changes.contains(part), "{}", changes);
    }
    let start = |start: &str| told(&format!("{}start: {} T: * identity O: * uniform", HEADERS, start));
    assert_eq!(start("0 0.0"), ["the start totals 0"]);
    assert_eq!(start("-0.5 1.5"), ["a probability of the start is below 0: -0.5"]);
    let row = |row: &str| told(&format!("{}T: * : * {} O: * uniform", HEADERS, row));
    assert_eq!(row("0.5 0.4")[0], "T of action listen from state left totals 0.9");
    assert_eq!(row("1.5 -0.5")[0], "a probability of T of action listen from state left is below 0: -0.5");
    let close = format!("{}T: * : * 0.333 0.666 O: * uniform", HEADERS);
    let fitted = fit(&read(close.as_bytes()).unwrap(), false).unwrap();
    assert_eq!(fitted.transitions[0], [333, 667]);
    assert!(fitted.changes[2].contains("the furthest is 0.999"), "{:?}", fitted.changes);
}

#[test]
fn what_does_not_fit_is_said() {
    let rest = "T: * identity O: * uniform";
    assert_eq!(
        told("discount: 1 states: 65 actions: 9 observations: 2"),
        [
            "the model has 65 states, and 1 to 64 fit into a model file",
            "the model has 9 actions, and 1 to 8 fit into a model file"
        ]
    );
    assert_eq!(
        told("states: 2 actions: 1"),
        ["the header `discount` is missing", "the header `observations` is missing"]
    );
    assert_eq!(told(&format!("{}{} R: * : * : * : * 1000.01", HEADERS, rest)).len(), 4);
    assert_eq!(
        told(&format!("{}{} R: 0 : 0 : * : * 0.005", HEADERS, rest)),
        ["1 expected reward is no whole hundredth"]
    );
    for (text, title) in [
        ("T: look identity", "`look` does not fit here"),
        ("T: 2 identity", "`2` does not fit here"),
        ("T: 0 1 0 0", "the file ends too early"),
        ("T: 0 : 0 1 zero", "`zero` does not fit here"),
        ("T: 0 : 0 reset 1", "`1` does not fit here"),
        ("T: 0 : 0 reset start: left", "`start` stands behind a `reset`"),
        ("start: left T: 0 : 0 reset T: 0 : 1 reset start: right", "`start` stands behind a `reset`"),
        ("O: 0 identical", "`identical` does not fit here"),
        ("R: 0 identity", "`identity` does not fit here"),
        ("start: somewhere", "`somewhere` does not fit here"),
        ("T: * identity states: 3", "`states` does not fit here"),
        ("T: * identity E: 0", "`E` does not fit here"),
    ] {
        assert_eq!(told(&format!("{}{}", HEADERS, text)), [title], "{}", text);
    }
    assert_eq!(told("discount: 1.5"), ["`1.5` does not fit here"]);
    assert_eq!(told("values: gain"), ["`gain` does not fit here"]);
    assert_eq!(told("states: a a"), ["`a` does not fit here"]);
}

/// Damaged files end with a sentence, never otherwise; what is imported is read.
#[test]
fn damaged_files() {
    for name in ["tiger", "crying-baby", "corridor"] {
        let file = example(&format!("cassandra/{}.POMDP", name));
        let mut imported = 0;
        for at in 0..file.len() {
            for byte in [b' ', b':', b'*', b'0', b'-'] {
                let mut damaged = file.clone();
                damaged[at] = byte;
                match read(&damaged).and_then(|source| fit(&source, true)) {
                    Ok(fitted) => {
                        imported += 1;
                        assert!(Model::read(write(&fitted, "a test").as_bytes()).is_ok(), "{} at {}", name, at);
                    }
                    Err(told) => assert!(!told.is_empty()),
                }
            }
        }
        assert!(imported > 0);
    }
}

/// A model file that would be too long: whether shorter names help is told as it is.
#[test]
fn models_that_are_too_long() {
    let long = |name: &str, text: &str| {
        let path = Path::new(env!("CARGO_TARGET_TMPDIR")).join(name);
        fs::write(&path, text).unwrap();
        let output = Command::cargo_bin("biidhaqun").unwrap().arg("import").arg(&path).output().unwrap();
        let err = String::from_utf8(output.stderr).unwrap();
        assert!(output.status.code() == Some(1) && err.starts_with("biidhaqun: refused 1 at 0: "), "{}", err);
        err
    };
    // Each of 64 states leads to all of them, and no two alike.
    let row = |state: usize| (0..64).map(|to| if to == state { " 0.055" } else { " 0.015" }).collect::<String>();
    let rows: String = (0..64).map(|state| format!("T: * : {}{}\n", state, row(state))).collect();
    let headers = "discount: 0.95 values: reward states: 64 actions: 2 observations: 1\n";
    let dense = long("dense.POMDP", &format!("{}{}O: * uniform", headers, rows));
    assert!(dense.contains("without them too it is too long") && !dense.contains("shorter names"), "{}", dense);
    let named = HEADERS.replace("left", &"l".repeat(33_000));
    let named = long("named.POMDP", &format!("{}T: * identity O: * uniform", named));
    assert!(named.contains("shorter names help"), "{}", named);
}
