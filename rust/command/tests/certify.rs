//! `certify` with a solver's files, and with vectors that cover part of the states, as a user meets it.

use assert_cmd::Command;
use serde_json::{json, Value};
use std::path::{Path, PathBuf};
use std::sync::atomic::{AtomicUsize, Ordering};
use std::{fs, str};

/// How many steps the examples have.
const STEPS: usize = 6;

fn root() -> PathBuf {
    Path::new(env!("CARGO_MANIFEST_DIR")).join("../..")
}

/// What a run printed on standard output and on standard error, and its exit status.
fn run(arguments: &[&str]) -> (String, String, i32) {
    let output = Command::cargo_bin("biidhaqun").unwrap().current_dir(root()).args(arguments).output().unwrap();
    let text = |bytes: &[u8]| str::from_utf8(bytes).unwrap().to_string();
    (text(&output.stdout), text(&output.stderr), output.status.code().unwrap())
}

fn example(name: &str) -> String {
    fs::read_to_string(root().join("examples/solver").join(name)).unwrap()
}

/// `certify MODEL` and the files of so many steps.
fn steps(model: &str, count: usize) -> Vec<String> {
    let mut words = vec!["certify".to_string(), format!("examples/{}.pomdp", model)];
    for t in 1..=count {
        words.extend(["alpha", "pg"].map(|kind| format!("examples/solver/{}.{}{}", model, kind, t)));
    }
    words
}

fn words(list: &[String]) -> Vec<&str> {
    list.iter().map(String::as_str).collect()
}

/// A file of the tests' own folder, another for each call, since tests run beside each other.
fn temporary(name: &str, content: &str) -> String {
    static FILES: AtomicUsize = AtomicUsize::new(0);
    let number = FILES.fetch_add(1, Ordering::Relaxed);
    let path = Path::new(env!("CARGO_TARGET_TMPDIR")).join(format!("{}-{}", number, name));
    fs::write(&path, content).unwrap();
    path.to_str().unwrap().to_string()
}

#[test]
fn the_examples_are_certified() {
    for model in ["dough", "tiger"] {
        let served = (example(&format!("{}.expected", model)), String::new(), 0);
        assert_eq!(run(&words(&steps(model, STEPS))), served, "{}", model);
    }
}

#[test]
fn points_and_mixtures() {
    let two = steps("tiger", 3);
    let gap = |more: &[&str]| {
        let (out, _, status) = run(&[&words(&two)[..], more].concat());
        assert_eq!(status, 0);
        let line = out.lines().nth(2).unwrap().to_string();
        line.split(' ').nth(3).unwrap().parse::<i64>().unwrap()
    };
    let more = ["--point", "50,50", "--point", "85,15", "--point", "15,85", "--point", "97,3", "--point", "3,97"];
    assert!(gap(&more) < gap(&[]));
    let (out, _, status) = run(&[&words(&two)[..], &["--within", "40..60,40..60"]].concat());
    assert!(status == 0 && out.contains("\nwithin 40..60,40..60\n"), "{}", out);
    let (out, _, _) = run(&[&words(&two)[..], &["--at", "1,0", "--at", "0,1"]].concat());
    let asked: Vec<&str> = out.lines().filter(|line| line.starts_with("at ")).collect();
    assert_eq!(asked, ["at 1,0 (tiger-left 1)", "at 0,1 (tiger-right 1)"]);
    // What is printed as one object is offered again.
    let (out, _, _) = run(&[&words(&two)[..], &["--json"]].concat());
    let path = temporary("solved.json", &out);
    let (again, _, status) = run(&["certify", "examples/tiger.pomdp", &path]);
    assert_eq!((again, status), (run(&words(&two)).0, 0));
}

/// The second step's files with one word replaced: the lines, and what is told.
fn damaged(kind: &str, change: [&str; 2]) -> (String, String) {
    let mut arguments = steps("dough", 2);
    let at = if kind == "alpha" { 4 } else { 5 };
    let text = example(&format!("dough.{}2", kind));
    assert_ne!(text, text.replacen(change[0], change[1], 1), "{:?}", text);
    arguments[at] = temporary(&format!("damaged.{}", kind), &text.replacen(change[0], change[1], 1));
    let path = arguments[at].clone();
    let (out, err, status) = run(&words(&arguments));
    assert_eq!(status, 1, "{}", err);
    (out, err.replace(&path, "FILE"))
}

#[test]
fn what_is_refused_is_shown_at_its_word() {
    let first = "1 -10000 -10000 0 0\n";
    let text = example("dough.alpha2");
    let word = text.split_whitespace().nth(1).unwrap();
    let place = text.find(word).unwrap();
    let (out, err) = damaged("alpha", [word, "0.1234567890123"]);
    assert_eq!(out, format!("{}refused 19 at {}\n", first, place));
    assert!(err.starts_with("error[19]: `0.1234567890123` does not fit here") && err.contains("FILE:2:1\n"), "{}", err);
    assert!(err.contains("it has 13 digits behind the point") && err.contains("sed -E"), "{}", err);
    let (out, err) = damaged("pg", ["1 0", "2 0"]);
    assert!(out.starts_with(&format!("{}refused 19 at ", first)), "{}", out);
    assert!(err.contains("FILE:2:1\n") && err.contains("this is node 2, out of order"), "{}", err);
    let (out, err) = damaged("pg", ["0 0  ", "0 1  "]);
    assert_eq!(out, format!("{}refused 20 at 0\n", first));
    assert!(err.contains("vector 0 has action 0 in the alpha file, and 1 in the graph"), "{}", err);
    let (out, err) = damaged("pg", ["0 0  0", "0 0  -"]);
    assert_eq!(out, format!("{}refused 10 at 0\n", first));
    assert!(err.contains("vector 0") && err.contains("a hyphen at level 2"), "{}", err);
    let (out, err) = damaged("alpha", [word, "-2000.01"]);
    assert_eq!(out, format!("{}refused 11 at 0\n", first));
    assert!(err.contains("FILE:2:1\n") && err.contains("below the range of level 2"), "{}", err);
    // In JSON, the step before it and what is told.
    let mut arguments = steps("dough", 2);
    arguments[4] = temporary("brief.alpha", &text.replacen(word, "-2000.01", 1));
    let (out, _, status) = run(&[&words(&arguments)[..], &["--json"]].concat());
    let object: Value = serde_json::from_str(&out).unwrap();
    assert_eq!((object["levels"].as_array().unwrap().len(), status), (1, 1));
    assert_eq!((&object["refused"]["number"], &object["refused"]["level"]), (&json!(11), &json!(2)));
    let detail =
        "brief.alpha:2:1: vector 0 has a value below the range of level 2; below the range; wanted: -2000 or more";
    assert!(object["refused"]["detail"].as_str().unwrap().contains(detail), "{}", out);
    // A step with more vectors than a level may have.
    let nodes: String = (0..1_001).map(|number| format!("{} 0 - -\n", number)).collect();
    let many = [temporary("many.alpha", &"0 0 0\n".repeat(1_001)), temporary("many.pg", &nodes)];
    let (_, err, status) = run(&["certify", "examples/dough.pomdp", &many[0], &many[1]]);
    assert!(
        err.starts_with("error[19]: the graph has more than 1,000 nodes, and a level at most 1,000 vectors"),
        "{}",
        err
    );
    assert!(status == 1 && err.contains("many.pg:1001:1\n") && err.contains("prune"), "{}", err);
    // The graph where the alpha file should be.
    let mut arguments = steps("dough", 1);
    arguments.swap(2, 3);
    let (out, err, status) = run(&words(&arguments));
    assert_eq!((out, status), ("refused 19 at 5\n".to_string(), 1));
    assert!(err.contains("for each step the alpha file comes first"), "{}", err);
}

#[test]
fn points_that_are_refused() {
    let refused = |more: &[&str]| {
        let (out, err, status) = run(&[&words(&steps("dough", 1))[..], more].concat());
        assert_eq!(status, 1);
        (out, err)
    };
    // They are told as `levels` tells them, and no file is blamed.
    let (out, err) = refused(&["--point", "50,51"]);
    assert!(out == "refused 12 at 0\n" && err.contains("\n  point 0 is 50,51, which total 101\n"), "{}", err);
    assert!(err.starts_with("biidhaqun: refused 12 at 0: ") && !err.contains("alpha1"), "{}", err);
    let (out, err) = refused(&["--point", "50,50"].repeat(17));
    assert!(out == "refused 9 at 0\n" && err.contains("\n  there are 17 points, and"), "{}", err);
    assert!(!err.contains("alpha1"), "{}", err);
    // The same where the files would be refused next.
    let (alpha, graph) = (temporary("dangling.alpha", "0 0 0\n"), temporary("dangling.pg", "0 0 9 9\n"));
    let files = ["certify", "examples/dough.pomdp", &alpha, &graph];
    let (out, err, _) = run(&[&files[..], &["--point", "50,50"].repeat(17)].concat());
    assert!(out == "refused 9 at 0\n" && err.contains("\n  there are 17 points, and"), "{}", err);
    assert!(!err.contains("error of ours"), "{}", err);
    assert_eq!(run(&files).0, "refused 10 at 0\n");
    let (out, _) = refused(&["--json", "--point", "0,0"]);
    let object: Value = serde_json::from_str(&out).unwrap();
    assert_eq!((&object["refused"]["number"], &object["refused"]["level"]), (&json!(12), &json!(1)));
    assert_eq!(object["refused"]["detail"], "point 0 is 0,0, which total 0");
}

/// The levels of `examples/seeding.json` with one text replaced: what is printed, what is told, and the exit status.
fn seeding(change: [&str; 2], more: &[&str]) -> (String, String, i32) {
    let text = fs::read_to_string(root().join("examples/seeding.json")).unwrap();
    assert!(text.contains(change[0]), "{}", text);
    let path = temporary(&format!("seeding-{}.json", change[1].len()), &text.replace(change[0], change[1]));
    run(&[&["certify", "examples/seeding.pomdp", &path], more].concat())
}

/// No vector covers all three forms: one is for melted chocolate, which the light gate tells for sure, one for the rest.
#[test]
fn vectors_that_cover_part_of_the_states() {
    let ladder = fs::read_to_string(root().join("examples/seeding.expected")).unwrap();
    assert_eq!(seeding(["mask", "mask"], &[]), (ladder, String::new(), 0));
    // What is printed as one object has the masks, with 0 where nothing is covered, and is offered again.
    let (out, _, _) = seeding(["[0, 900, -400]", "[777, 900, -400]"], &["--json"]);
    assert!(!out.contains("777"), "{}", out);
    let object: Value = serde_json::from_str(&out).unwrap();
    let masks = object["levels"][0]["vectors"].as_array().unwrap().iter().map(|vector| vector["mask"].clone());
    assert_eq!(masks.collect::<Vec<_>>(), [json!([0]), json!([1, 2])]);
    let path = temporary("masked.json", &out);
    let (again, _, status) = run(&["certify", "examples/seeding.pomdp", &path, "--json"]);
    assert_eq!((again, status), (out, 0));
    // A mask is a list of states, or their bits.
    let bits = seeding(["mask", "mask"], &["--json"]);
    assert_eq!(seeding(["\"mask\": 6", "\"mask\": [2, 1]"], &["--json"]), bits);
    let (_, err, status) = seeding(["\"mask\": 6", "\"mask\": [1, 3]"], &[]);
    assert!(status == 1 && err.contains("level 1: vectors[1].mask[1] is 3, and the last state is 2"), "{}", err);
    // Where a mask is missing, all states are covered.
    let (_, err, status) = seeding(["\"mask\": 1, ", ""], &[]);
    assert!(status == 1 && err.contains("level 1 is not accepted; vector 0: the entry of state fine is 0"), "{}", err);
    let (_, err, status) = seeding(["\"mask\": 1", "\"mask\": -1"], &[]);
    assert!(status == 1 && err.contains("level 1: vectors[0].mask is -1, below 0"), "{}", err);
    let (out, err, status) = seeding(["\"choices\": [0, 1]", "\"choices\": [1, 1]"], &[]);
    assert_eq!((&out[..], status), ("1 -5000 -5000 0 0\nrefused 21 at 0\n", 1));
    let lost =
        "state melted is covered, from which action stir leads to state melted with observation runs; vector 1, chosen";
    assert!(err.starts_with("biidhaqun: refused 21 at 0: ") && err.contains(lost), "{}", err);
}

/// Levels of 64 states pass a tool that keeps every number in floating point, as jq and node do.
#[test]
fn levels_survive_floating_point() {
    let zeros = " 0".repeat(63);
    let model = format!("discount: 0.9 values: reward states: 64 actions: 1 observations: 1 start: 1{}\n", zeros);
    let model = model + "T: 0 : * : 0 1\nO: 0 : * 1\nR: 0 : 0 : * : * 1\n";
    let model = temporary("wide.pomdp", &model);
    let levels = |object: &Value| {
        let path = temporary("rounded.json", &rounded(object).to_string());
        run(&["certify", &model, &path])
    };
    let (out, _, _) = run(&["levels", &model, "--json"]);
    let mut object: Value = serde_json::from_str(&out).unwrap();
    assert_eq!(levels(&object), run(&["levels", &model]));
    // The last vector of a level without the last two states: so it is printed again, and read again.
    for level in object["levels"].as_array_mut().unwrap() {
        let vectors = level["vectors"].as_array_mut().unwrap();
        vectors.last_mut().unwrap()["mask"] = ((1_u64 << 62) - 1).into();
    }
    let path = temporary("bits.json", &object.to_string());
    let (out, _, status) = run(&["certify", &model, &path, "--json"]);
    assert_eq!(status, 0);
    let object = serde_json::from_str(&out).unwrap();
    let (again, _, status) =
        run(&["certify", &model, &temporary("lists.json", &rounded(&object).to_string()), "--json"]);
    assert_eq!((again, status), (out, 0));
}

/// A value with each whole number as floating point holds it.
fn rounded(value: &Value) -> Value {
    match value {
        Value::Number(number) => match number.as_f64().unwrap() {
            float if float.fract() == 0.0 => (float as i128 as i64).into(),
            float => float.into(),
        },
        Value::Array(list) => list.iter().map(rounded).collect(),
        Value::Object(object) => object.iter().map(|(key, value)| (key.clone(), rounded(value))).collect(),
        other => other.clone(),
    }
}

/// Where no vector counts, what is certified elsewhere is printed all the same.
#[test]
fn mixtures_at_which_no_vector_counts() {
    let (out, err, status) = seeding(["mask", "mask"], &["--at", "1,1,1", "--at", "0,1,1"]);
    assert_eq!(status, 1);
    assert_eq!(out.matches("no vector counts here").count(), 3);
    assert!(out.contains("at 0,1,1 (fine 1, coarse 1)\n") && out.contains(" pour\n"), "{}", out);
    assert!(err.starts_with("biidhaqun: level 1 is accepted, but certifies nothing at 1,1,1: "), "{}", err);
    assert!(err.contains("leaves out a state that has weight there; "), "{}", err);
    let (out, _, status) = seeding(["mask", "mask"], &["--at", "1,1,1", "--json"]);
    assert_eq!((out.matches("\"refused\": 22").count(), status), (3, 1));
    // Melted chocolate may have weight within these ranges, and no vector covers it with the others.
    let (out, err, status) = seeding(["mask", "mask"], &["--within", "0..1,1..1,1..1", "--within", "0..0,1..2,1..2"]);
    assert_eq!((out.matches("no vector counts here").count(), status), (3, 1));
    assert!(err.contains("level 1 is accepted, but certifies nothing within 0..1,1..1,1..1: "), "{}", err);
    assert!(err.contains("leaves out a state that may have weight there; "), "{}", err);
    let (out, _, status) = seeding(["mask", "mask"], &["--within", "0..1,1..1,1..1", "--json"]);
    assert_eq!((out.matches("\"refused\": 22").count(), status), (3, 1));
    // The lines of `ladder`: at the start the chocolate is melted, and here level 3 says nothing of that.
    let (out, _, status) = seeding(["\"mask\": 1, \"entries\": [433", "\"mask\": 8, \"entries\": [433"], &[]);
    assert_eq!((&out[..], status), ("1 -5000 -5000 0 0\n2 32000 32100 100 0\n3 refused 22 at 0\n", 1));
}

#[test]
fn wrong_usage() {
    let mut odd = steps("dough", 1);
    odd.push("examples/solver/dough.alpha2".to_string());
    let (_, err, status) = run(&words(&odd));
    assert!(status == 2 && err.contains("come in pairs"), "{}", err);
    let (_, err, status) = run(&["certify", "examples/dough.pomdp", "levels.json", "--point", "50,50"]);
    assert!(status == 2 && err.contains("--point is for a solver's files"), "{}", err);
    let (_, err, status) = run(&["certify", "examples/dough.pomdp", "examples/solver/dough.alpha1", "nowhere"]);
    assert!(status == 3 && err.contains("nowhere cannot be read"), "{}", err);
    assert_eq!(run(&["certify", "examples/dough.pomdp"]).2, 2);
}
