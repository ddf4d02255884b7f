//! The command as a user meets it: what it prints, and its exit status.

use assert_cmd::cargo::cargo_bin;
use assert_cmd::Command;
use biidhaqun::Model;
use std::io::Write;
use std::path::{Path, PathBuf};
use std::process::{self, Stdio};
use std::{fs, str};

/// The root of the repository.
fn root() -> PathBuf {
    Path::new(env!("CARGO_MANIFEST_DIR")).join("../..")
}

/// What a run printed on standard output and on standard error, and its exit status.
fn run(arguments: &[&str]) -> (String, String, i32) {
    let output = Command::cargo_bin("biidhaqun").unwrap().current_dir(root()).args(arguments).output().unwrap();
    let text = |bytes: &[u8]| str::from_utf8(bytes).unwrap().to_string();
    (text(&output.stdout), text(&output.stderr), output.status.code().unwrap())
}

/// What a served run printed.
fn served(arguments: &[&str]) -> String {
    let (out, err, status) = run(arguments);
    assert_eq!((&err[..], status), ("", 0), "{:?}", arguments);
    out
}

/// What a run that was not served printed on standard error.
fn stopped(arguments: &[&str], with: i32) -> String {
    let (_, err, status) = run(arguments);
    assert_eq!(status, with, "{:?}: {}", arguments, err);
    err
}

/// A file of the tests' own folder.
fn temporary(name: &str, content: &[u8]) -> PathBuf {
    let path = Path::new(env!("CARGO_TARGET_TMPDIR")).join(name);
    fs::write(&path, content).unwrap();
    path
}

/// Model files with what `ladder` prints on them.
fn with_expected() -> Vec<(PathBuf, String)> {
    let folders = ["examples", "tests/files"].map(|folder| fs::read_dir(root().join(folder)).unwrap());
    let paths = folders.into_iter().flatten().map(|entry| entry.unwrap().path());
    let models: Vec<PathBuf> = paths.filter(|path| path.extension().map_or(false, |end| end == "pomdp")).collect();
    assert!(models.len() > 40);
    models
        .into_iter()
        .map(|path| (path.clone(), fs::read_to_string(path.with_extension("expected")).unwrap()))
        .collect()
}

#[test]
fn levels_with_no_option_prints_the_lines_of_ladder() {
    for (path, expected) in with_expected() {
        let (out, err, status) = run(&["levels", path.to_str().unwrap()]);
        let refused = expected.starts_with("refused");
        assert_eq!((out, status), (expected, i32::from(refused)), "{}", path.display());
        assert_eq!(err.is_empty(), !refused, "{}", path.display());
    }
}

#[test]
fn check_accepts_and_refuses_as_the_reader_does() {
    for (path, expected) in with_expected() {
        let (out, err, status) = run(&["check", path.to_str().unwrap()]);
        match expected.strip_prefix("refused ") {
            Some(refusal) => {
                let number = refusal.split(' ').next().unwrap();
                assert_eq!((&out[..], status), ("", 1), "{}", path.display());
                assert!(err.starts_with(&format!("error[{}]: ", number)), "{}", err);
                assert!(err.contains(&format!("`biidhaqun explain {}` says more", number)), "{}", err);
                assert!(!err.contains("an error of ours"), "{}", err);
            }
            None => {
                assert_eq!((&err[..], status), ("", 0));
                assert!(out.contains(": accepted\n"));
            }
        }
    }
}

#[test]
fn check_tells_the_place_as_compilers_do() {
    let dough = fs::read_to_string(root().join("examples/dough.pomdp")).unwrap();
    let told = |name: &str, change: [&str; 2]| {
        assert_ne!(dough, dough.replace(change[0], change[1]));
        let path = temporary(name, dough.replace(change[0], change[1]).as_bytes());
        let err = stopped(&["check", path.to_str().unwrap()], 1);
        err.replace(&path.display().to_string(), "FILE")
    };
    let row = told("row.pomdp", ["T: 0 : 1 0 1", "T: 0 : 1 0.5 0.4"]);
    assert!(row.starts_with("error[5]: T of action 0 from state 1 totals 0.9\n"), "{}", row);
    assert!(row.contains("FILE:8:1\n"), "{}", row);
    assert!(row.contains("8 │ T: 0 : 1 0.5 0.4\n  │ ^^^^^^^^^^^^^^^^ the row is 0.5 + 0.4 = 0.9\n"), "{}", row);
    let unstated = told("unstated.pomdp", ["O: 0 : 1 0.3 0.7\n", ""]);
    assert!(unstated.starts_with("error[6]: O of action 0 at state 1 totals 0\n"), "{}", unstated);
    let start = told("start.pomdp", ["0.5 0.5\nT", "0.5 0.49\nT"]);
    assert!(start.starts_with("error[4]: the start numbers total 0.99\n"), "{}", start);
    let limit = told("limit.pomdp", ["T: 1 : *", "T: 2 : *"]);
    assert!(limit.contains("FILE:9:4\n") && limit.contains("wanted: one of the actions 0 to 1"), "{}", limit);
    let form = told("form.pomdp", ["0.8 0.2", "8e-4 0.2"]);
    assert!(form.contains("FILE:10:10\n") && form.contains("wanted: a probability"), "{}", form);
    assert!(form.contains("behind the e stands an optional minus and one digit from 0 to 3"), "{}", form);
    let unit = told("unit.pomdp", ["start: 0.5", "start: 5e-3"]);
    assert!(unit.contains("FILE:6:8\n") && unit.contains("it is no whole number of hundredths"), "{}", unit);
    let count = told("count.pomdp", ["states: 2", "states: 002"]);
    assert!(count.contains("it has 3 digits, and at most 2 fit"), "{}", count);
    // What the importer refuses too is not handed to it.
    let import = "`biidhaqun import` reads decimals";
    assert!(told("decimals.pomdp", ["0.8 0.2", "0.8000 0.2"]).contains(import));
    for reward in ["12345678901234567890123", "1000.001"] {
        let far = told("far.pomdp", ["R: 1 : 1 : * : * 6", &format!("R: 1 : 1 : * : * {}", reward)]);
        assert!(far.contains("wanted: a reward") && !far.contains(import), "{}", far);
    }
    let capital = told("capital.pomdp", ["discount: 0.9", "discount: 9E-1"]);
    assert!(capital.contains("the e of an exponent is small"), "{}", capital);
    // What helps goes by the kind of the statement.
    let help = |change: [&str; 2]| told("help.pomdp", change).split("help: ").nth(1).unwrap_or("").to_string();
    let reward = "write each reward by itself, as `R: a : s : * : *` and its number, or";
    assert!(help(["R: 0 : * : * : * -1", "R: 0 : * : * -1"]).starts_with(reward));
    assert!(help(["R: 0 : * : * : * -1", "R: 0 -1"]).starts_with(reward));
    let one = "the statement before it has one number, its reward";
    assert!(help(["R: 1 : 1 : * : * 6", "R: 1 : 1 : * : * 6 7"]).starts_with(one));
    assert!(help(["O: 0 : 0 0.8 0.2", "O: 0 0.8 0.2"]).starts_with("write a matrix row by row, as `O: a : s` and"));
    assert!(help(["T: 0 : 1 0 1", "T: 0 : 1 0 1 0"]).starts_with("the statement before it has too many numbers"));
    assert!(help(["start: 0.5 0.5", "start: 0.5 0.5 0"]).starts_with("there are more start numbers than states"));
    assert_eq!(help(["discount: 0.9", "discount 0.9"]), "");
    let names = told("names.pomdp", ["states: 2", "states: wet dry"]);
    assert!(names.contains("FILE:3:9\n") && names.contains("`biidhaqun import`"), "{}", names);
}

#[test]
fn check_shows_files_of_any_bytes() {
    for content in [&b"\xff\xfe\x00"[..], b"discount: \x80\x80 # \xf0\n", b"", &[b'x'; 40_000]] {
        let path = temporary("bytes.pomdp", content);
        assert!(stopped(&["check", path.to_str().unwrap()], 1).starts_with("error["));
    }
}

/// Names in comments that do not count are told, and the file is accepted all the same.
#[test]
fn check_tells_names_that_are_passed_over() {
    let dough = fs::read_to_string(root().join("examples/dough.pomdp")).unwrap();
    let comments = "# states: \u{fc}nready ready\n# actions: wait\n# observations: flat risen\n";
    let path = temporary("passed.pomdp", (comments.to_string() + &dough).as_bytes());
    let out = served(&["check", path.to_str().unwrap()]);
    assert!(out.contains(": accepted\n  2 states\n  2 actions\n  2 observations: flat, risen\n"), "{}", out);
    assert!(out.contains("\n  the comment `# states:` is passed over: `\u{fc}nready` is no name: "), "{}", out);
    assert!(out.contains("\n  the comment `# actions:` is passed over: 1 name, and the actions are 2\n"), "{}", out);
    for (path, expected) in with_expected().into_iter().filter(|(_, expected)| !expected.starts_with("refused")) {
        assert!(!served(&["check", path.to_str().unwrap()]).contains("passed over"), "{}", expected);
    }
}

/// A line that fills a screen is not shown, but its place is.
#[test]
fn check_leaves_long_lines_out() {
    let dough = fs::read_to_string(root().join("examples/dough.pomdp")).unwrap().replace('\n', " ");
    let path = temporary("long.pomdp", format!("{}{}T: 2 : 0 1 0", dough, " ".repeat(1_000)).as_bytes());
    let err = stopped(&["check", path.to_str().unwrap()], 1);
    assert!(err.contains(":1:1239: error[3]: `2` is outside its limit") && err.contains("wanted: "), "{}", err);
    assert!(err.len() < 600, "{}", err);
}

#[test]
fn levels_at_points_and_mixtures() {
    let out = served(&["levels", "examples/dough.pomdp", "--levels", "2", "--at", "1,0", "--at", "0,1"]);
    let lines: Vec<Vec<&str>> = out.lines().map(|line| line.split_whitespace().collect()).collect();
    assert_eq!(lines[0], ["at", "1,0"]);
    assert_eq!(lines[3], ["2", "-0.5100", "-0.5000", "0.0100", "-51", "-50", "informed", "0"]);
    assert_eq!(lines[5], ["at", "0,1"]);
    assert_eq!(lines[8], ["2", "5.1000", "5.1000", "0.0000", "510", "510", "both", "1"]);
    // At the points, then at the mixtures.
    let out = served(&["levels", "examples/dough.pomdp", "--at", "1,0", "--point", "20,80", "--point", "50,50"]);
    let asked: Vec<&str> = out.lines().filter(|line| line.starts_with("at ")).collect();
    assert_eq!(asked, ["at 20,80", "at 50,50", "at 1,0"]);
    // More points make a tighter ceiling at the start.
    let gap = |points: &[&str]| {
        let options = ["levels", "examples/tiger.pomdp", "--json", "--at", "50,50"];
        let out = served(&[&options[..], points].concat());
        let object: serde_json::Value = serde_json::from_str(&out).unwrap();
        object["levels"][2]["at"][0]["gap"].as_i64().unwrap()
    };
    let more = ["--point", "50,50", "--point", "85,15", "--point", "15,85", "--point", "97,3", "--point", "3,97"];
    assert!(gap(&more) < gap(&[]), "{} and {}", gap(&more), gap(&[]));
}

#[test]
fn levels_as_json() {
    let out = served(&["levels", "examples/dough.pomdp", "--json"]);
    let object: serde_json::Value = serde_json::from_str(&out).unwrap();
    let at = &object["levels"][2]["at"][0];
    assert_eq!(at["lower"], 13_350);
    assert_eq!(at["upper"], 18_575);
    assert_eq!(at["sawtooth"], 18_575);
    assert!(at["informed"].as_i64() > Some(18_575));
    assert_eq!(at["floor"], 1.335);
    assert_eq!(at["ceiling"], 1.8575);
    assert_eq!(at["action"], 0);
    assert_eq!(object["discount"], 0.9);
    let (out, _, status) = run(&["levels", "tests/files/row-of-zeros.pomdp", "--json"]);
    let object: serde_json::Value = serde_json::from_str(&out).unwrap();
    assert_eq!((object["refused"]["number"].as_u64(), status), (Some(5), 1));
}

/// Levels as `levels --json` prints them are accepted again; changed ones are refused, with what is missing.
#[test]
fn levels_from_a_file() {
    let printed = served(&["levels", "examples/dough.pomdp", "--json"]);
    let path = temporary("levels.json", printed.as_bytes());
    let certify = ["certify", "examples/dough.pomdp", path.to_str().unwrap()];
    assert_eq!(served(&certify), served(&["levels", "examples/dough.pomdp"]));
    assert_eq!(served(&[&certify[..], &["--json"]].concat()), printed);
    let at = served(&[&certify[..], &["--at", "0,1"]].concat());
    assert!(at.starts_with("at 0,1\n"), "{}", at);
    stopped(&[&certify[..], &["--at", "1"]].concat(), 2);

    let object: serde_json::Value = serde_json::from_str(&printed).unwrap();
    let changed = |change: &dyn Fn(&mut serde_json::Value)| {
        let mut object = object.clone();
        change(&mut object["levels"][1]);
        let path = temporary("changed.json", object.to_string().as_bytes());
        stopped(&["certify", "examples/dough.pomdp", path.to_str().unwrap()], 1)
    };
    // The built level 2 has the corner -32, which is the least that passes.
    let corner = changed(&|level| level["corners"][0] = (-40).into());
    assert!(corner.contains("refused 14 at 0") && corner.contains("level 2 is not accepted"), "{}", corner);
    assert!(corner.contains("corner 0: -40 is 8 ticks below the backup of action 0; -32 would pass"), "{}", corner);
    let point = changed(&|level| level["points"][0]["value"] = 12_499.into());
    assert!(point.contains("refused 15 at 0") && point.contains("total weight, 100) is 1 below"), "{}", point);
    assert!(point.contains("12500 would pass"), "{}", point);
    let vector = changed(&|level| level["vectors"][0]["entries"][0] = (-50).into());
    assert!(vector.contains("refused 13 at 0") && vector.contains("entry of state 0 is -50"), "{}", vector);
    assert!(vector.contains("1 tick above its backup; -51 would pass"), "{}", vector);
    let action = changed(&|level| level["vectors"][0]["action"] = 7.into());
    assert!(
        action.contains("refused 10 at 0") && action.contains("it has action 7, and the last one is 1"),
        "{}",
        action
    );
    let action = changed(&|level| level["vectors"][0]["action"] = 300.into());
    assert!(action.contains("vector 0: it has action 255 or more"), "{}", action);
    let choice = changed(&|level| level["vectors"][1]["choices"][1] = 9.into());
    let told = "vector 1: with observation 1 it goes on with vector 9, and the last one of the level below is 2";
    assert!(choice.contains("refused 10 at 1") && choice.contains(told), "{}", choice);
    let entry = changed(&|level| level["vectors"][0]["entries"][1] = 200_001.into());
    assert!(entry.contains("vector 0: the entry of state 1 is 200001, further than 200000 from 0"), "{}", entry);
    let corner = changed(&|level| level["corners"][0] = (-200_001).into());
    assert!(corner.contains("refused 11 at 0") && corner.contains("corner 0 is -200001, further"), "{}", corner);
    let value = changed(&|level| level["points"][0]["value"] = 20_000_001.into());
    assert!(value.contains("refused 11 at 0"), "{}", value);
    assert!(value.contains("point 0: its value is 20000001, further than 20000000 from 0"), "{}", value);
    let weights = changed(&|level| level["points"][0]["weights"] = serde_json::json!([50, 51]));
    assert!(weights.contains("refused 12 at 0") && weights.contains("its weights total 101\n"), "{}", weights);
    let weights = changed(&|level| level["points"][0]["weights"] = serde_json::json!([1_099_511_627_776_u64, 1]));
    assert!(weights.contains("refused 12 at 0") && weights.contains("total 4294967296 or more\n"), "{}", weights);
    let none = changed(&|level| level["vectors"] = serde_json::json!([]));
    assert!(none.contains("refused 9 at 0") && none.contains("it has 0 vectors and 1 point\n"), "{}", none);
    let short = changed(&|level| level["corners"] = serde_json::json!([0]));
    assert!(short.contains("the corners of the level are 1, and the model wants 2"), "{}", short);
    let form = changed(&|level| level["corners"][0] = "x".into());
    assert!(form.contains("level 2: corners[0] is \"x\", no whole number"), "{}", form);
    let form = changed(&|level| level["vectors"][1]["entries"] = 5.into());
    assert!(form.contains("level 2: vectors[1].entries is 5, no list"), "{}", form);
    let form = changed(&|level| level["points"][0]["value"] = 1.5.into());
    assert!(form.contains("level 2: points[0].value is 1.5, no whole number"), "{}", form);
    let form = changed(&|level| level["corners"][0] = (-100.0).into());
    assert!(form.contains("level 2: corners[0] is -100.0, written with a point"), "{}", form);
    let form = changed(&|level| level["vectors"][0]["action"] = serde_json::Value::Null);
    assert!(form.contains("level 2: vectors[0].action is null, no whole number"), "{}", form);
    let far = printed.replacen("\"value\": -", "\"value\": -1180591620717411303424", 1);
    let far = temporary("far.json", far.as_bytes());
    let far = stopped(&["certify", "examples/dough.pomdp", far.to_str().unwrap()], 1);
    assert!(far.contains("level 1: points[0].value is") && far.contains(", beyond every limit"), "{}", far);
    let wrong = |content: &str| {
        let path = temporary("wrong.json", content.as_bytes());
        stopped(&["certify", "examples/dough.pomdp", path.to_str().unwrap()], 1)
    };
    for content in ["", "[]", "{\"levels\": 1}"] {
        let told = wrong(content);
        assert!(told.contains("one file alone is read as levels in JSON; a solver's files come in pairs"), "{}", told);
    }
    assert!(wrong("{\"levels\": []}").contains("it has no level"));
    assert!(wrong("{\"levels\": [{}]}").contains("level 1: vectors is missing"));
}

/// Levels that are accepted before one is refused are printed, and the refusal is the last line.
#[test]
fn levels_before_a_refusal() {
    let mut object: serde_json::Value =
        serde_json::from_str(&served(&["levels", "examples/dough.pomdp", "--json"])).unwrap();
    object["levels"][2]["corners"][0] = (-900).into();
    let path = temporary("refused.json", object.to_string().as_bytes());
    let certify = ["certify", "examples/dough.pomdp", path.to_str().unwrap()];
    let (out, err, status) = run(&certify);
    assert_eq!((&out[..], status), ("1 -10000 -10000 0 0\n2 10000 12500 2500 0\nrefused 14 at 0\n", 1));
    assert!(err.contains("level 3 is not accepted; corner 0: -900 is"), "{}", err);
    let (out, _, status) = run(&[&certify[..], &["--json"]].concat());
    let refused: serde_json::Value = serde_json::from_str(&out).unwrap();
    assert_eq!((refused["refused"]["number"].as_u64(), status), (Some(14), 1));
    assert_eq!(refused["refused"]["level"], 3);
    assert!(refused["refused"]["detail"].as_str().unwrap().contains("; corner 0: -900 is"), "{}", out);
    assert_eq!(refused["levels"].as_array().unwrap()[..], object["levels"].as_array().unwrap()[..2]);
}

/// With `--json` a refusal of whatever kind is one object; wrong usage is none.
#[test]
fn refusals_as_json() {
    let refused = |arguments: &[&str]| -> serde_json::Value {
        let (out, _, status) = run(&[arguments, &["--json"]].concat());
        let object: serde_json::Value = serde_json::from_str(&out).unwrap();
        assert_eq!((status, object["levels"].as_array().unwrap().len()), (1, 0), "{}", out);
        object["refused"].clone()
    };
    let file = refused(&["certify", "examples/dough.pomdp", "examples/dough.pomdp"]);
    assert!(file["number"].is_null() && file["text"].as_str().unwrap().contains("it is no JSON: "), "{}", file);
    let model = refused(&["levels", "tests/files/row-of-zeros.pomdp"]);
    let detail = model["detail"].as_str().unwrap();
    assert!(detail.contains("row-of-zeros.pomdp:") && detail.contains(" totals 0; "), "{}", detail);
    let mixture = refused(&["levels", "examples/dough.pomdp", "--at", "0,0"]);
    assert_eq!((&mixture["number"], &mixture["detail"]), (&17.into(), &"the mixture is 0,0".into()));
    let (out, _, status) = run(&["levels", "examples/dough.pomdp", "--at", "1", "--json"]);
    assert_eq!((&out[..], status), ("", 2));
}

/// A file that is longer than its kind may be is refused, and never cut; levels in JSON have room for what is printed of them.
#[test]
fn long_files() {
    let long = |name: &str, blanks: usize, rest: &str| {
        let path = temporary(name, &[b' '].repeat(blanks));
        fs::OpenOptions::new().append(true).open(&path).unwrap().write_all(rest.as_bytes()).unwrap();
        path
    };
    let tiger = fs::read_to_string(root().join("examples/cassandra/tiger.POMDP")).unwrap();
    let room = long("room.POMDP", (64 << 20) - tiger.len(), &tiger);
    let (out, _, status) = run(&["import", room.to_str().unwrap()]);
    assert!(status == 0 && out.contains("R: 0 : * : * : * -1\n"), "{}", out);
    let over = long("room.POMDP", (64 << 20) + 1 - tiger.len(), &tiger);
    assert!(stopped(&["import", over.to_str().unwrap()], 3).contains("cannot be read: it has more than 64 MiB"));
    fs::remove_file(over).unwrap();
    let printed = served(&["levels", "examples/dough.pomdp", "--json"]);
    let levels = long("room.json", 17 << 20, &printed);
    let certified = served(&["certify", "examples/dough.pomdp", levels.to_str().unwrap()]);
    assert_eq!(certified, served(&["levels", "examples/dough.pomdp"]));
    fs::remove_file(levels).unwrap();
    // The library's own limit is refused by the library.
    let dough = fs::read_to_string(root().join("examples/dough.pomdp")).unwrap();
    let fitting = long("room.pomdp", 32_768 - dough.len(), &dough);
    assert!(served(&["check", fitting.to_str().unwrap()]).contains("accepted"));
    let over = long("room.pomdp", 32_769 - dough.len(), &dough);
    assert_eq!(run(&["levels", over.to_str().unwrap()]).0, "refused 1 at 0\n");
    assert_eq!(run(&["levels", "/dev/zero"]).0, "refused 1 at 0\n");
}

/// The first look leaves a pipe as it is.
#[test]
fn a_file_from_a_pipe() {
    let [first, whole] = ["biidhaqun-usage", "biidhaqun"].map(cargo_bin);
    let both = "cat examples/dough.pomdp | { \"$0\" check /dev/stdin; test $? = 100 && \"$1\" check /dev/stdin; }";
    let output = process::Command::new("sh").current_dir(root()).arg("-c").arg(both).args([first, whole]).output();
    let output = output.unwrap();
    assert!(str::from_utf8(&output.stdout).unwrap().starts_with("/dev/stdin: accepted\n"), "{:?}", output);
}

/// An output that is full or closed ends the command with 3.
#[test]
fn outputs_that_cannot_be_written() {
    let full = || Stdio::from(fs::OpenOptions::new().write(true).open("/dev/full").unwrap());
    // What nobody reads any more.
    let closed = || {
        let mut gone = process::Command::new("true").stdin(Stdio::piped()).spawn().unwrap();
        let pipe = gone.stdin.take().unwrap();
        gone.wait().unwrap();
        Stdio::from(pipe)
    };
    let ended = |name: &str, arguments: &[&str], out: Stdio, err: Stdio| {
        let mut command = process::Command::new(cargo_bin(name));
        let output = command.current_dir(root()).args(arguments).stdout(out).stderr(err).spawn().unwrap();
        let output = output.wait_with_output().unwrap();
        (output.status.code(), String::from_utf8(output.stderr).unwrap())
    };
    let served = [&["explain", "5"][..], &["--help"], &["check", "examples/dough.pomdp"], &["levels", "/dev/null"]];
    for arguments in served {
        let (status, err) = ended("biidhaqun", arguments, full(), Stdio::piped());
        assert_eq!(
            (status, &err[..]),
            (Some(3), "biidhaqun: standard output cannot be written: no space left on device\n")
        );
        let (status, err) = ended("biidhaqun", arguments, closed(), Stdio::piped());
        assert_eq!((status, &err[..]), (Some(3), "biidhaqun: standard output cannot be written: broken pipe\n"));
    }
    for arguments in [&["check", "nofile"][..], &["check", "/dev/null"], &["levels", "/dev/null"], &["level"]] {
        assert_eq!(ended("biidhaqun", arguments, Stdio::null(), full()).0, Some(3), "{:?}", arguments);
    }
    for arguments in [&["explain", "5"][..], &["--help"]] {
        assert_eq!(ended("biidhaqun-usage", arguments, closed(), Stdio::null()).0, Some(3));
    }
}

#[test]
fn a_hundred_levels() {
    let out = served(&["levels", "examples/dough.pomdp", "--levels", "100"]);
    assert!(out.lines().any(|line| line.trim_start().starts_with("100 ")));
}

/// Points of small totals, and what they certify where three states are equally likely.
#[test]
fn points_say_thirds() {
    let points = ["1,1,1", "4,5,1", "1,5,9", "1,2,2", "1,1,0"].map(|point| ["--point", point]).concat();
    let out = served(&[&["levels", "examples/tempering.pomdp"], &points[..]].concat());
    let third = out.lines().nth(4).unwrap().split_whitespace().collect::<Vec<_>>();
    assert_eq!(third, ["3", "1.3900", "1.5167", "0.1267", "417", "455", "sawtooth", "stir"]);
}

#[test]
fn what_the_certifier_refuses() {
    let point = |weights: &str| stopped(&["levels", "examples/dough.pomdp", "--point", weights], 1);
    assert!(point("50,51").contains("refused 12 at 0") && point("50,51").contains("total 101"));
    assert!(point("0,0").contains("refused 12 at 0") && point("0,0").contains("total 0"));
    let many = ["--point", "50,50"].repeat(17);
    let err = stopped(&[&["levels", "examples/dough.pomdp"], &many[..]].concat(), 1);
    assert!(err.contains("refused 9 at 0") && err.contains("there are 17 points"), "{}", err);
    for weights in ["0,0", "1000001,0", "4294967296,0"] {
        assert!(stopped(&["levels", "examples/dough.pomdp", "--at", weights], 1).contains("refused 17 at 0"));
    }
    assert!(point("4294967296,1").contains("point 0 is 4294967295 or more,1, which total 4294967296 or more"));
    // The line of `ladder` stands on standard output, as with `certify`; a picture has none.
    let line = |arguments: &[&str]| run(arguments).0;
    for (option, value, number) in [("--point", "0,0", 12), ("--at", "0,0", 17), ("--within", "1..0,0..1", 24)] {
        let refused = format!("refused {} at 0\n", number);
        assert_eq!(line(&["levels", "examples/dough.pomdp", option, value]), refused);
    }
    let prices = ["levels", "examples/dough.pomdp", "--prices", "examples/tiger.pomdp"];
    assert_eq!(line(&prices), "refused 23 at 0\n");
    let drawn = Path::new(env!("CARGO_TARGET_TMPDIR")).join("refused.svg");
    let picture = ["picture", "examples/dough.pomdp", "--point", "0,0", "--out", drawn.to_str().unwrap()];
    assert_eq!((line(&picture), run(&picture).2), (String::new(), 1));
}

#[test]
fn wrong_usage() {
    for arguments in [
        &["levels"][..],
        &[],
        &["level", "examples/dough.pomdp"],
        &["levels", "examples/dough.pomdp", "--levels", "0"],
        &["levels", "examples/dough.pomdp", "--levels", "101"],
        &["levels", "examples/dough.pomdp", "--point", "half,half"],
        &["levels", "examples/dough.pomdp", "--point", "30,30,40"],
        &["levels", "examples/dough.pomdp", "--at", "1"],
        &["picture", "examples/dough.pomdp", "--at", "1", "--out", "drawn.svg"],
        &["explain", "0"],
        &["explain", "one"],
    ] {
        assert!(!stopped(arguments, 2).is_empty());
    }
    let many = stopped(&["levels", "examples/dough.pomdp", "--levels", "101"], 2);
    assert!(many.contains("`101` is no number from 1 to 100"), "{}", many);
    let other = stopped(&["levels", "examples/dough.pomdp", "--steps"], 2);
    assert!(other.contains("\nUsage: biidhaqun levels <FILE>\n"), "{}", other);
    let at = |weights: &str| stopped(&["levels", "examples/dough.pomdp", "--at", weights], 2);
    for (weights, told) in [
        ("1,", "a weight is missing"),
        ("-1,1", "`-1` is below 0"),
        ("0.5,1", "`0.5` is no weight"),
        ("1", "--at 1 has 1 weight, and the model has 2 states"),
    ] {
        assert!(at(weights).contains(told), "{}", at(weights));
    }
    let range = stopped(&["levels", "examples/dough.pomdp", "--within", "1..2"], 2);
    assert!(range.contains("--within 1..2 has 1 range, and the model has 2 states"), "{}", range);
}

#[test]
fn files_that_cannot_be_read() {
    for command in ["levels", "check", "import", "convert"] {
        assert!(stopped(&[command, "examples/no-such-file"], 3).contains("cannot be read: no such file"));
        assert!(stopped(&[command, "examples"], 3).contains("cannot be read"));
    }
}

/// No file that is read is written, by whatever name.
#[test]
fn an_output_that_is_an_input() {
    let path = temporary("both.pomdp", &fs::read(root().join("examples/dough.pomdp")).unwrap());
    let linked = path.with_file_name("both-linked.pomdp");
    let _ = fs::remove_file(&linked);
    fs::hard_link(&path, &linked).unwrap();
    for command in ["picture", "import", "convert"] {
        for out in [path.to_str().unwrap(), linked.to_str().unwrap()] {
            let arguments = [command, path.to_str().unwrap(), "--out", out];
            assert!(stopped(&arguments, 2).contains("would overwrite"));
            let first = Command::cargo_bin("biidhaqun-usage").unwrap().args(arguments).output().unwrap();
            assert_eq!(first.status.code(), Some(2));
        }
    }
    assert_eq!(fs::read(&path).unwrap(), fs::read(root().join("examples/dough.pomdp")).unwrap());
}

/// The program's own script looks for the file before it proves anything.
#[test]
fn the_script_of_ladder() {
    let output = Command::new("scripts/ladder").current_dir(root()).arg("examples/no-such-file").output().unwrap();
    let told = str::from_utf8(&output.stderr).unwrap();
    assert_eq!((output.status.code(), told), (Some(3), "scripts/ladder: examples/no-such-file cannot be read\n"));
}

#[test]
fn every_refusal_is_explained() {
    for number in (1..=27).chain([100]) {
        let out = served(&["explain", &number.to_string()]);
        assert!(out.starts_with(&format!("{}. ", number)) && out.contains("What usually causes it"), "{}", out);
    }
}

/// Rewards that depend on what follows: the example is written as what is kept beside it, which is read.
#[test]
fn conversions() {
    let example = "examples/outcomes/glazing.pomdp";
    let written = fs::read_to_string(root().join("examples/outcomes/glazing.written")).unwrap();
    assert_eq!(served(&["convert", example]), written);
    let out = Path::new(env!("CARGO_TARGET_TMPDIR")).join("glazing.pomdp");
    assert_eq!(served(&["convert", example, "--out", out.to_str().unwrap()]), "");
    // The names in the comments are kept, and the model is the same.
    let names = "# states: dull glossy\n# actions: wait glaze\n# observations: matt shine\n";
    let named = fs::read_to_string(&out).unwrap();
    assert_eq!(named, format!("{}{}", names, written));
    assert_eq!(Model::read(named.as_bytes()), Model::read(written.as_bytes()));
    assert!(served(&["check", out.to_str().unwrap()]).contains("accepted\n  2 states: dull, glossy\n"));
    assert!(run(&["import", out.to_str().unwrap()]).0.contains(names));
    // Names that would make the file too long are left out.
    let long: String = (0..16).map(|state| format!(" {}{}", "s".repeat(900), state)).collect();
    let source = format!(
        "# states:{}\ndiscount: 1 values: reward states: 16 actions: 8 observations: 8 start: 1{} T: * : * : 0 1 O: * : * : 0 1",
        long,
        " 0".repeat(15)
    );
    let source = temporary("long-names.pomdp", source.as_bytes());
    let source = source.to_str().unwrap();
    assert_eq!(served(&["convert", source, "--out", out.to_str().unwrap()]), "");
    assert_eq!(fs::read_to_string(&out).unwrap(), served(&["convert", source]));
    // The file itself is no model file: the explanation says what to do.
    let err = stopped(&["check", example], 1);
    assert!(err.contains("let `biidhaqun convert` do it"), "{}", err);

    let text = fs::read_to_string(root().join(example)).unwrap();
    let refused = |name: &str, from: &str, to: &str| {
        let path = temporary(name, text.replacen(from, to, 1).as_bytes());
        let (out, err, status) = run(&["convert", path.to_str().unwrap()]);
        assert_eq!((&out[..], status), ("", 1), "{}", err);
        err
    };
    let err = refused("unwhole.pomdp", "R: 1 : * : 1 : 0 3", "R: 1 : * : 1 : 0 3.01");
    assert!(err.contains("error[26]: the expected reward of action glaze at state dull is -0.8392"), "{}", err);
    assert!(err.contains("refusal 26 of docs/RULES.md;"), "{}", err);
    let err = refused("row.pomdp", "T: 0 : 0 1 0", "T: 0 : 0 1 1");
    assert!(err.contains("error[5]") && err.contains("refusal 5 of docs/RULES.md;"), "{}", err);
    let err = refused("one.pomdp", "R: 1 : * : 1 : 0 3", "R: 1 : * : 1 3");
    assert!(err.contains("help: write each reward by itself, as `R: a : s : s' : o` and its number"), "{}", err);
    let err = refused("index.pomdp", "R: 1 : * : 1 : 0 3", "R: 1 : * : 1 : 2 3");
    assert!(err.contains("one of the observations 0 to 1"), "{}", err);
    let mut wide =
        format!("discount: 1 values: reward states: 17 actions: 1 observations: 1 start: 1{}", " 0".repeat(16));
    wide.push_str(" T: 0 : * : 0 1 O: 0 : * 1");
    let path = temporary("wide.pomdp", wide.as_bytes());
    let err = stopped(&["convert", path.to_str().unwrap()], 1);
    assert!(err.contains("error[25]") && err.contains("the model has 17 states"), "{}", err);
    assert!(err.contains("help: `biidhaqun import` works them out for up to 64 states"), "{}", err);
    assert_eq!(run(&["import", path.to_str().unwrap()]).2, 0);
}

#[test]
fn help_and_version() {
    assert!(served(&["--help"]).contains("Exit status: 0 served, 1 refused"));
    assert!(served(&["levels", "--help"]).contains("--point"));
    assert!(served(&["--version"]).starts_with("biidhaqun "));
}

/// Weights that are known within ranges: at (40, 60), (50, 50) and (60, 40) the totals lie inside.
#[test]
fn levels_within_ranges() {
    let dough = ["levels", "examples/dough.pomdp", "--levels", "2"];
    let out = served(&[&dough[..], &["--within", "40..60,40..60", "--within", "0..0,7..9"]].concat());
    let shown = "\nwithin 40..60,40..60\nlevel          lower          upper\n    1         -12000          32000\n    2           6980          29320\n\nwithin 0..0,7..9\n";
    assert!(out.starts_with("at 50,50") && out.contains(shown), "{}", out);
    assert!(out.ends_with("the best plan at each mixture inside earns between the two\n"), "{}", out);
    let out = served(&[&dough[..], &["--within", "40..60,40..60", "--json"]].concat());
    assert_eq!(out.matches("\"within\": [").count(), 2);
    assert!(out.contains("\"lower\": 6980") && out.contains("\"upper\": 29320"), "{}", out);
    assert!(!served(&[&dough[..], &["--json"]].concat()).contains("within"));
    for (ranges, number) in [("1..0,0..1", 24), ("1..0,0..1000001", 24), ("0..1000001,0..0", 17), ("0..0,0..0", 17)] {
        let err = stopped(&[&dough[..], &["--within", ranges]].concat(), 1);
        assert!(err.contains(&format!("refused {} at 0", number)) && err.contains(ranges), "{}", err);
    }
    for ranges in ["40..60", "40,60", "40..60,x..1", "40..60,1"] {
        stopped(&[&dough[..], &["--within", ranges]].concat(), 2);
    }
}

/// New prices after the last level: with a bread that earns 0.30 less, every bound of level 2 moves by 60 ticks.
#[test]
fn levels_with_new_prices() {
    let dough = ["levels", "examples/dough.pomdp", "--levels", "2", "--prices"];
    let out = served(&[&dough[..], &["examples/dearer.pomdp", "--within", "40..60,40..60"]].concat());
    let shown = "    2       1.0000       1.2500     0.2500          10000          12500  sawtooth  0\n  \
                 new       0.4000       1.8500     1.4500           4000          18500  sawtooth  0\n";
    assert!(out.contains(shown), "{}", out);
    assert!(out.ends_with("\nnew: level 2 once the rewards of examples/dearer.pomdp are in force\n"), "{}", out);
    let out = served(&[&dough[..], &["examples/dearer.pomdp", "--json"]].concat());
    assert!(out.contains("\"prices\": {") && out.contains("\"upper\": 18500"), "{}", out);
    let err = stopped(&[&dough[..], &["examples/tiger.pomdp"]].concat(), 1);
    assert!(err.contains("refused 23 at 0"), "{}", err);
    let files = "examples/dough.pomdp and examples/tiger.pomdp may differ in their rewards alone; ";
    assert!(err.contains(&format!("{}the actions are 2 in the first, 3 in the second\n", files)), "{}", err);
    stopped(&[&dough[..], &["examples/nowhere.pomdp"]].concat(), 3);
    assert!(served(&["explain", "23"]).starts_with("23. New prices"));
}

/// What a picture shows is in its words.
#[test]
fn pictures() {
    let path = Path::new(env!("CARGO_TARGET_TMPDIR")).join("drawn.svg");
    let draw = |model: &str, more: &[&str]| {
        let arguments = [&["picture", model, "--out", path.to_str().unwrap()], more].concat();
        assert_eq!(served(&arguments), "");
        fs::read_to_string(&path).unwrap()
    };
    let two = draw("examples/dough.pomdp", &["--levels", "5"]);
    assert!(two.starts_with("<svg") && two.contains("level 5, all mixtures") && two.contains("share of state 1"));
    assert!(two.matches("informed ceiling").count() == 2 && two.matches("sawtooth ceiling").count() == 2);
    let machine = temporary("machine.pomdp", served_import("machine").as_bytes());
    let three = draw(machine.to_str().unwrap(), &["--at", "1,1,1"]);
    assert!(three.contains("at 1,1,1") && three.contains("ceiling less floor") && three.contains("both-failed"));
    let cheese = temporary("cheese.pomdp", served_import("cheese").as_bytes());
    let many = draw(cheese.to_str().unwrap(), &[]);
    assert!(many.contains("level (steps)") && !many.contains("all mixtures"));
    let twice = ["picture", "examples/dough.pomdp", "--at", "1,0", "--at", "0,1", "--out", path.to_str().unwrap()];
    stopped(&twice, 2);
    stopped(&["picture", "examples/dough.pomdp"], 2);
    for out in ["no-such-folder/drawn.svg", "examples"] {
        let arguments = ["picture", "examples/dough.pomdp", "--out", out];
        assert!(stopped(&arguments, 3).contains("cannot be written"));
    }
}

/// A file of the literature, imported.
fn served_import(name: &str) -> String {
    let (out, _, status) = run(&["import", &format!("examples/cassandra/{}.POMDP", name), "--round"]);
    assert_eq!(status, 0);
    out
}

/// The first look at a command line, without the library.
#[test]
fn usage_alone() {
    let look = |arguments: &[&str]| {
        let output =
            Command::cargo_bin("biidhaqun-usage").unwrap().current_dir(root()).args(arguments).output().unwrap();
        output.status.code().unwrap()
    };
    assert_eq!(look(&["levels", "examples/dough.pomdp"]), 100);
    assert_eq!(look(&["check", "tests/files/empty.pomdp"]), 100);
    assert_eq!(look(&["explain", "13"]), 0);
    assert_eq!(look(&["levels", "examples/dough.pomdp", "--level", "3"]), 2);
    let usage = Command::cargo_bin("biidhaqun-usage").unwrap().arg("picture").output().unwrap();
    assert!(str::from_utf8(&usage.stderr).unwrap().contains("Usage: biidhaqun picture --out"));
    assert_eq!(look(&["levels", "examples/no-such-file"]), 3);
    assert_eq!(look(&["picture", "examples/dough.pomdp", "--out", "no-such-folder/drawn.svg"]), 3);
}
