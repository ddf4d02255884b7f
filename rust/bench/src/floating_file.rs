//! Reading and writing a model file in floating point, word by word.

use crate::floating::Tables;

/// The words of a text in turn.
struct Words<'a> {
    words: std::iter::Peekable<std::vec::IntoIter<&'a str>>,
}

impl<'a> Words<'a> {
    fn key(&mut self, key: &str) -> Option<()> {
        self.words.next().filter(|word| *word == key).map(|_| ())
    }

    fn number<Number: std::str::FromStr>(&mut self) -> Option<Number> {
        self.words.next()?.parse().ok()
    }

    fn header<Number: std::str::FromStr>(&mut self, key: &str) -> Option<Number> {
        self.key(key)?;
        self.key(":")?;
        self.number()
    }

    fn indices(&mut self, count: usize) -> Option<std::ops::Range<usize>> {
        self.key(":")?;
        let word = self.words.next()?;
        if word == "*" {
            return Some(0..count);
        }
        word.parse().ok().filter(|&index: &usize| index < count).map(|index| index..index + 1)
    }

    /// A statement; rewards go by outcome where the tables have room for that.
    fn statement(&mut self, kind: &str, tables: &mut Tables, outcomes: bool) -> Option<()> {
        let (n, k) = (tables.states, tables.observations);
        let actions = self.indices(tables.actions)?;
        let states = self.indices(n)?;
        let (cells, width) = match kind {
            "T" => (&mut tables.transitions, n),
            "O" => (&mut tables.sights, tables.observations),
            "R" => (&mut tables.rewards, if outcomes { n * k } else { 1 }),
            _ => return None,
        };
        let row: Vec<(usize, f64)> = if kind == "R" && outcomes {
            let (reached, seen) = (self.indices(n)?, self.indices(k)?);
            let reward = 100.0 * self.number::<f64>()?;
            reached.flat_map(|s2| seen.clone().map(move |o| (s2 * k + o, reward))).collect()
        } else if kind == "R" {
            for _ in 0..2 {
                self.key(":")?;
                self.key("*")?;
            }
            // Rewards are kept in hundredths, as the whole numbers are.
            vec![(0, 100.0 * self.number::<f64>()?)]
        } else if self.words.peek() == Some(&":") {
            let indices = self.indices(width)?;
            let number = self.number()?;
            indices.map(|index| (index, number)).collect()
        } else {
            (0..width).map(|index| Some((index, self.number()?))).collect::<Option<_>>()?
        };
        for a in actions {
            for s in states.clone() {
                for &(index, number) in &row {
                    cells[(a * n + s) * width + index] = number;
                }
            }
        }
        Some(())
    }
}

/// Reads a model file.
pub fn read(file: &[u8]) -> Option<(Tables, Vec<f64>)> {
    read_as(file, false)
}

/// Writes a file whose rewards depend on what follows as a model file, with expected rewards.
pub fn convert(file: &[u8]) -> Option<String> {
    let (mut tables, start) = read_as(file, true)?;
    let (n, k) = (tables.states, tables.observations);
    let outcomes = std::mem::take(&mut tables.rewards);
    for (row, outcomes) in outcomes.chunks(n * k).enumerate() {
        let seen = &tables.sights[row / n * n * k..];
        let reached = &tables.transitions[row * n..(row + 1) * n];
        let cells = reached.iter().enumerate().flat_map(|(s2, t)| (0..k).map(move |o| (s2 * k + o, t)));
        tables.rewards.push(cells.map(|(cell, t)| t * seen[cell] * outcomes[cell]).sum());
    }
    let numbers = |row: &[f64]| row.iter().map(|number| format!(" {}", number)).collect::<String>();
    let mut text = format!("discount: {}\nvalues: reward\nstates: {}\n", tables.discount, n);
    text += &format!("actions: {}\nobservations: {}\nstart:{}\n", tables.actions, k, numbers(&start));
    for (key, cells, width) in [("T", &tables.transitions, n), ("O", &tables.sights, k)] {
        for (at, row) in cells.chunks(width).enumerate() {
            text += &format!("{}: {} : {}{}\n", key, at / n, at % n, numbers(row));
        }
    }
    for (at, reward) in tables.rewards.iter().enumerate() {
        text += &format!("R: {} : {} : * : * {:.2}\n", at / n, at % n, reward / 100.0);
    }
    Some(text)
}

fn read_as(file: &[u8], outcomes: bool) -> Option<(Tables, Vec<f64>)> {
    let text = std::str::from_utf8(file).ok()?;
    let lines = text.lines().map(|line| line.split('#').next().unwrap_or(""));
    let spaced: String = lines.map(|line| line.replace(':', " : ") + "\n").collect();
    let words: Vec<&str> = spaced.split_ascii_whitespace().collect();
    let mut words = Words { words: words.into_iter().peekable() };
    let discount = words.header("discount")?;
    words.key("values")?;
    words.key(":")?;
    words.key("reward")?;
    let states = words.header("states")?;
    let actions = words.header("actions")?;
    let observations = words.header("observations")?;
    words.key("start")?;
    words.key(":")?;
    let start = (0..states).map(|_| words.number()).collect::<Option<Vec<f64>>>()?;
    let rows = actions * states;
    let mut tables = Tables {
        states,
        actions,
        observations,
        discount,
        transitions: vec![0.0; rows * states],
        sights: vec![0.0; rows * observations],
        rewards: vec![0.0; rows * if outcomes { states * observations } else { 1 }],
    };
    while let Some(kind) = words.words.next() {
        words.statement(kind, &mut tables, outcomes)?;
    }
    Some((tables, start))
}
