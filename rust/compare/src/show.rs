//! Cases in words: every number of storage, equal neighbours gathered.

use crate::gen::{List, Step};
use reference::{Certifier, Graph, Level, Points, Tables};
use std::fmt::Display;

/// A list of cells; `7x3` stands for three cells of 7.
fn cells<Cell: Display + PartialEq>(cells: &[Cell]) -> String {
    let mut texts = Vec::new();
    let mut at = 0;
    while at < cells.len() {
        let same = cells[at..].iter().take_while(|&cell| *cell == cells[at]).count();
        texts.push(if same > 1 { format!("{}x{}", cells[at], same) } else { cells[at].to_string() });
        at += same;
    }
    format!("[{}]", texts.join(" "))
}

pub fn tables(tables: &Tables) -> String {
    format!(
        "tables: states {} actions {} observations {} discount {}\n  T {}\n  O {}\n  R {}\n",
        tables.states,
        tables.actions,
        tables.observations,
        tables.discount,
        cells(&tables.transitions),
        cells(&tables.sights),
        cells(&tables.rewards)
    )
}

pub fn level(level: &Level) -> String {
    format!(
        "level: vectors {} points {}\n  actions {}\n  choices {}\n  masks {}\n  entries {}\n  corners {}\n  weights {}\n  \
         values {}\n",
        level.vectors,
        level.points,
        cells(&level.actions),
        cells(&level.choices),
        cells(&level.masks),
        cells(&level.entries),
        cells(&level.corners),
        cells(&level.weights),
        cells(&level.values)
    )
}

pub fn certifier(certifier: &Certifier) -> String {
    format!(
        "certifier at level {}\n{}standing {}  informed {}\n  qmdp {}\n",
        certifier.level,
        tables(&certifier.tables),
        level(&certifier.standing),
        cells(&certifier.informed),
        cells(&certifier.qmdp)
    )
}

pub fn points(points: &Points) -> String {
    format!("points: {}, weights {}\n", points.count, cells(&points.weights))
}

pub fn graph(graph: &Graph) -> String {
    format!("graph: nodes {}\n  actions {}\n  next {}\n", graph.nodes, cells(&graph.actions), cells(&graph.next))
}

pub fn steps(steps: &[Step]) -> String {
    let step = |(at, step): (usize, &Step)| match step {
        Step::Offer(offered) => format!("step {}: offer {}", at, level(offered)),
        Step::Totals(mixture) => format!("step {}: totals at {}\n", at, cells(mixture)),
        Step::Within(lows, highs) => format!("step {}: totals within {} and {}\n", at, cells(lows), cells(highs)),
        Step::Reprice(new) => format!("step {}: new prices, {}", at, tables(new)),
        Step::Build(upon) => format!("step {}: build upon {}", at, points(upon)),
        Step::Raise(upon) => format!("step {}: build and offer upon {}", at, points(upon)),
    };
    steps.iter().enumerate().map(step).collect()
}

pub fn list(list: &List) -> String {
    format!("{}{}", tables(&list.tables), steps(&list.steps))
}
