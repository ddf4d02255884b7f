//! The files in examples/solver: as the solver writes them, and certified by the reference as the folder says.

use reference::{adopt, offer, open, totals, Points, Reading, Rules, VECTORS};
use solver::{alpha_file, graph_file, steps, Model};
use std::fs;
use std::path::{Path, PathBuf};

/// How many steps each model has there.
const STEPS: usize = 6;

fn folder() -> PathBuf {
    Path::new(env!("CARGO_MANIFEST_DIR")).join("../../examples")
}

fn model(name: &str) -> Reading {
    let file = fs::read(folder().join(format!("{}.pomdp", name))).unwrap();
    reference::read(&file, &Rules::default()).unwrap()
}

fn text(name: &str) -> String {
    fs::read_to_string(folder().join("solver").join(name)).unwrap()
}

#[test]
fn they_are_what_the_solver_writes() {
    for name in ["dough", "tiger"] {
        for (t, vectors) in (1..).zip(steps(&Model::of(&model(name).tables), STEPS, VECTORS)) {
            assert_eq!(text(&format!("{}.alpha{}", name, t)), alpha_file(&vectors), "{} at step {}", name, t);
            assert_eq!(text(&format!("{}.pg{}", name, t)), graph_file(&vectors), "{} at step {}", name, t);
        }
    }
}

/// What is certified of a solver's files, an alpha file and a graph for each step, at the start mixture as the only point: level,
/// lower and upper total, gap, action.
fn certified(model: &Reading, files: impl Iterator<Item = (String, String)>) -> String {
    let rules = Rules::default();
    let mut certifier = open(&model.tables, &rules).unwrap();
    let points = Points::one(&model.start);
    let mut lines = String::new();
    for (t, (alpha, graph)) in (1..).zip(files) {
        let level = adopt(&certifier, alpha.as_bytes(), graph.as_bytes(), &points, &rules).unwrap();
        offer(&mut certifier, &level, &rules).unwrap();
        let at = totals(&certifier, &model.start, &rules).unwrap();
        lines.push_str(&format!("{} {} {} {} {}\n", t, at.lower, at.upper, at.gap, at.action));
    }
    lines
}

#[test]
fn they_are_certified() {
    for name in ["dough", "tiger"] {
        let file = |kind: &str, t: usize| text(&format!("{}.{}{}", name, kind, t));
        let files = (1..=STEPS).map(|t| (file("alpha", t), file("pg", t)));
        assert_eq!(text(&format!("{}.expected", name)), certified(&model(name), files), "{}", name);
    }
}

/// Eight steps of the maze are certified too, of which the last has hundreds of vectors.
#[test]
fn hundreds_of_vectors_are_certified() {
    let maze = model("four-by-three");
    let found = steps(&Model::of(&maze.tables), 8, VECTORS);
    let counts: Vec<usize> = found.iter().map(Vec::len).collect();
    assert_eq!(counts, [1, 3, 4, 4, 15, 41, 128, 477]);
    assert_eq!(alpha_file(&found[7]).len(), 81_573);
    let files = found.iter().map(|vectors| (alpha_file(vectors), graph_file(vectors)));
    assert_eq!(text("four-by-three.expected"), certified(&maze, files));
}
