//! What the documents show is what the command prints and draws.

use assert_cmd::Command;
use biidhaqun::Model;
use std::path::{Path, PathBuf};
use std::{fs, str};

fn root() -> PathBuf {
    Path::new(env!("CARGO_MANIFEST_DIR")).join("../..")
}

fn text(path: &str) -> String {
    fs::read_to_string(root().join(path)).unwrap()
}

/// The blocks of code of a document.
fn blocks(document: &str) -> Vec<String> {
    document.split("```\n").skip(1).step_by(2).map(str::to_string).collect()
}

/// What a run in a folder prints, on both outputs.
fn printed(folder: &Path, arguments: &[&str]) -> String {
    let output = Command::cargo_bin("biidhaqun").unwrap().current_dir(folder).args(arguments).output().unwrap();
    String::from_utf8([output.stdout, output.stderr].concat()).unwrap()
}

/// Each block of the front page that begins with a run of the command goes on with what it prints.
#[test]
fn the_runs_of_the_front_page() {
    // The folder that the front page speaks of: the examples, and a dough model with a wrong row.
    let folder = Path::new(env!("CARGO_TARGET_TMPDIR")).join("front");
    fs::create_dir_all(folder.join("examples/solver")).unwrap();
    fs::create_dir_all(folder.join("examples/outcomes")).unwrap();
    let models = ["dough.pomdp", "dearer.pomdp", "tempering.pomdp", "tiger.pomdp", "seeding.pomdp", "seeding.json"];
    let models = models.map(|name| format!("examples/{}", name));
    let solver = (1..=3).flat_map(|t| ["alpha", "pg"].map(|kind| format!("examples/solver/tiger.{}{}", kind, t)));
    let outcomes = ["examples/outcomes/glazing.pomdp".to_string()];
    for example in models.into_iter().chain(solver).chain(outcomes) {
        fs::write(folder.join(&example), text(&example)).unwrap();
    }
    let dough = text("examples/dough.pomdp");
    fs::write(folder.join("dough.pomdp"), dough.replace("T: 0 : 1 0 1", "T: 0 : 1 0 0.9")).unwrap();
    let mut runs = 0;
    for block in blocks(&text("README.md")) {
        let (first, rest) = block.split_once('\n').unwrap();
        if let Some(arguments) = first.strip_prefix("$ scripts/biidhaqun ") {
            let arguments: Vec<&str> = arguments.split_whitespace().collect();
            assert_eq!(printed(&folder, &arguments).trim_end(), rest.trim_end(), "{}", first);
            runs += 1;
        }
    }
    assert_eq!(runs, 8);
}

/// The image in the front page is what the command beside it draws.
#[test]
fn the_picture_of_the_front_page() {
    let readme = text("README.md");
    let command = readme.lines().find_map(|line| line.strip_prefix("scripts/biidhaqun picture ")).unwrap();
    let arguments: Vec<&str> = command.split_whitespace().collect();
    let (shown, arguments) = arguments.split_last().unwrap();
    assert!(readme.contains(&format!("]({})", shown)));
    let path = Path::new(env!("CARGO_TARGET_TMPDIR")).join("front.svg");
    assert_eq!(printed(&root(), &[&["picture"], arguments, &[path.to_str().unwrap()]].concat()), "");
    assert!(fs::read_to_string(path).unwrap() == text(shown), "{} is not what is drawn", shown);
}

/// The page on model files shows the tiger as it stands among the examples.
#[test]
fn the_model_of_the_page_on_model_files() {
    let shown = blocks(&text("docs/MODEL-FILES.md")).remove(0);
    let tiger = Model::read(text("examples/tiger.pomdp").as_bytes()).unwrap();
    assert_eq!(Model::read(shown.as_bytes()), Ok(tiger));
}

/// The rules that a refusal points to list it.
#[test]
fn the_refusals_of_the_rules() {
    let rules = text("docs/RULES.md");
    let cells = rules.lines().filter_map(|line| line.strip_prefix("| ")?.split(" |").next());
    let listed: Vec<&str> = cells.flat_map(|cell| cell.split(", ")).collect();
    for number in 1..=27 {
        assert!(listed.contains(&&number.to_string()[..]), "{}", number);
    }
    let told = printed(&root(), &["check", "tests/files/empty.pomdp"]);
    assert!(told.contains("refusal 2 of docs/RULES.md; `biidhaqun explain 2` says more"), "{}", told);
}

/// Every refusal that the C header lists is explained.
#[test]
fn the_refusals_of_the_header() {
    let header = text("include/biidhaqun.h");
    for number in (1..=27).chain([100]) {
        assert!(header.contains(&format!("\n * {:>4}  ", number)));
        assert!(command::explain::text(number).is_some());
    }
}
