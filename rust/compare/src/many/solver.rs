//! A solver's files of hundreds of vectors, and of up to a byte over 4 MiB.

use super::stage::{files, raised, Files, Stage};
use super::{Case, SERVED};
use reference::{Certifier, FILE_BYTES, SOLVER_BYTES, VECTORS};

impl Stage {
    /// Files of hundreds of vectors.
    pub(super) fn adoptions(&self) -> Vec<Case> {
        let mut cases = Vec::new();
        let mut add = |about: String, upon: &Certifier, files: &Files, room: usize, ends: (u64, usize)| {
            cases.push(Case { about, call: self.adopt(upon, files, room), ends });
        };
        for vectors in [99, 100, 101, VECTORS - 1, VECTORS] {
            let (fresh, wide) = (files(self.shape, vectors, None), files(self.shape, vectors, Some(VECTORS)));
            add(format!("files of {} vectors", vectors), &self.fresh, &fresh, vectors, SERVED);
            add(format!("files of {} vectors upon 1,000", vectors), &self.wide, &wide, vectors, SERVED);
        }
        let (alpha, graph) = files(self.shape, VECTORS + 1, Some(VECTORS));
        let shorter = files(self.shape, VECTORS, Some(VECTORS)).1;
        let fourth = shorter.len();
        add("a node of four digits".to_string(), &self.wide, &(alpha.clone(), graph), VECTORS + 1, (19, fourth));
        add("1,001 vectors and 1,000 nodes".to_string(), &self.wide, &(alpha, shorter), VECTORS + 1, (20, 0));
        let one = files(self.shape, 1, None).0;
        let narrow = raised(&self.fresh, &self.level(&self.fresh, VECTORS - 1));
        for (upon, next, ends) in [
            (&self.wide, "999", SERVED),
            (&narrow, "998", SERVED),
            (&narrow, "999", (10, 0)),
            (&self.wide, "1000", (19, 4)),
            (&self.fresh, "999", (10, 0)),
        ] {
            let graph = format!("0 0 {} 0", next).into_bytes();
            let about = format!("next node {} upon {} vectors", next, upon.standing.vectors);
            add(about, upon, &(one.clone(), graph), 1, ends);
        }
        cases
    }

    /// Files of up to 4 MiB and a byte more.
    pub(super) fn long_files(&self) -> Vec<Case> {
        let mut cases = Vec::new();
        let short = files(self.shape, 3, None);
        let padded = |bytes: &[u8], length: usize, filler: u8| {
            let mut long = bytes.to_vec();
            long.resize(length, filler);
            long
        };
        let mut add = |about: String, files: Files, ends: (u64, usize)| {
            cases.push(Case { about, call: self.adopt(&self.fresh, &files, 3), ends });
        };
        for length in [FILE_BYTES, FILE_BYTES + 1, SOLVER_BYTES, SOLVER_BYTES + 1] {
            let ends = if length > SOLVER_BYTES { (1, 0) } else { SERVED };
            let (alpha, graph) = short.clone();
            add(format!("an alpha file of {} bytes", length), (padded(&alpha, length, b' '), graph), ends);
            let (alpha, graph) = short.clone();
            add(format!("a graph of {} bytes", length), (alpha, padded(&graph, length, b'#')), ends);
        }
        // The last byte is a word that does not fit.
        let (alpha, graph) = short.clone();
        let mut behind = padded(&alpha, SOLVER_BYTES - 1, b'\n');
        behind.push(b'x');
        add("an x at the end of 4 MiB".to_string(), (behind, graph), (19, SOLVER_BYTES - 1));
        let (alpha, graph) = short.clone();
        let place = graph.len();
        add("a word of nearly 4 MiB".to_string(), (alpha, padded(&graph, SOLVER_BYTES, b'0')), (19, place));
        // Words all over both files.
        let spread = |bytes: &[u8]| {
            let words: Vec<&[u8]> = bytes.split(|byte| byte.is_ascii_whitespace()).filter(|w| !w.is_empty()).collect();
            let room = SOLVER_BYTES / words.len();
            let mut long: Vec<u8> = Vec::new();
            for (at, word) in words.iter().enumerate() {
                long.resize((at + 1) * room - word.len(), b' ');
                long.extend_from_slice(word);
            }
            long
        };
        let (alpha, graph) = files(self.shape, VECTORS, Some(VECTORS));
        let call = self.adopt(&self.wide, &(spread(&alpha), spread(&graph)), VECTORS);
        cases.push(Case { about: "1,000 vectors over 4 MiB".to_string(), call, ends: SERVED });
        // 1 before 7.
        for (length, ends) in [(SOLVER_BYTES, (7, 0)), (SOLVER_BYTES + 1, (1, 0))] {
            let broken = Certifier { level: 101, ..self.fresh.clone() };
            let files = (padded(&short.0, length, b' '), short.1.clone());
            let about = format!("{} bytes upon a broken certifier", length);
            cases.push(Case { about, call: self.adopt(&broken, &files, 3), ends });
        }
        cases
    }
}
