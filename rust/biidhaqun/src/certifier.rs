//! Certifiers.

use crate::error::{Error, Handed, Length, Refusal};
use crate::level::Level;
use crate::model::Model;
use crate::parts::{List, Mixture, Points};
use crate::rule::Rule;
use crate::shape::Shape;
use crate::slices;
use crate::totals::{Bounds, Totals, TotalsWithin};

/// A certifier: a model, the number of levels that were accepted, the last of them, and the rows of the fast informed bound,
/// which it steps itself at each acceptance.
///
/// It owns a copy of the model and slices with room for every level, so that it can be kept and sent anywhere and no offer
/// lacks room; the calls are handed these slices as they lie, and nothing is translated or allocated in an offer or in
/// totals. That room is 1,000 × (8 n + 2 k + 9) bytes and some for the points and rows, with n states and k observations: 30 KB
/// for the two states and two observations of the tiger, 554 KB for the largest model. Where many small certifiers are kept,
/// the calls on [`slices`](crate::slices) take shorter ones.
///
/// What is proved of one that was opened on a [`Model`] and offered levels of any content: at a mixture where a vector counts,
/// its totals bracket what every plan earns that has as many steps as levels were accepted; and a level that it builds is
/// accepted. A vector counts where all weight lies on states that it covers; where none does, no totals are given. At every
/// mixture the best informed row is no lower than what any such plan earns, and at every action and state no higher than the
/// QMDP row. All of this is so, of the plans of the model now in force, where prices changed in between ([`Certifier::reprice`]).
#[derive(Clone, Debug)]
pub struct Certifier {
    model: Model,
    /// The list that offers and buildings work from; without words they work from the table.
    list: List,
    slices: slices::Certifier,
}

impl Certifier {
    /// A fresh certifier, at level 0. A [`Model`] is never refused.
    pub fn open(model: &Model) -> Result<Certifier, Refusal> {
        let Shape { states, actions, observations } = model.shape();
        let mut slices = slices::Certifier::roomy(states, actions, observations);
        Refusal::unless(slices::open(model.tables(), &mut slices), Handed::Tables(states))?;
        Ok(Certifier { model: model.clone(), list: List::from_words(&[]), slices })
    }

    /// The certifier of these slices, as [`Certifier::slices`] gave them. Refused with 7 where they break a limit or are too
    /// short. Nothing says that the levels of foreign slices were ever accepted: take them from where you trust them.
    pub fn from_slices(model: &Model, slices: slices::Certifier) -> Result<Certifier, Refusal> {
        // Totals at no mixture at all refuse every certifier: a broken one with 7, any other with 16 or 17.
        let ended = slices::totals(model.tables(), &slices, &[]);
        if ended.number == Rule::Certifier.number() {
            Refusal::unless(slices::Refusal { number: ended.number, place: ended.place }, Handed::Other)?;
        }
        let Shape { states, actions, observations } = model.shape();
        let room = slices::Certifier::roomy(states, actions, observations);
        Ok(Certifier { model: model.clone(), list: List::from_words(&[]), slices: grown(slices, &room) })
    }

    /// The certifier, with offers and buildings that work out successor weights and backups from the list of its model's
    /// transitions. What they answer and leave is the same; docs/BENCHMARK.md has what they take. Refused with 7 where it is not
    /// that list.
    ///
    /// ```
    /// use biidhaqun::{Certifier, List, Model, Points};
    ///
    /// # fn main() -> Result<(), Box<dyn std::error::Error>> {
    /// let (model, start) = Model::read(&std::fs::read("../../examples/tempering.pomdp")?)?;
    /// let by_table = Certifier::open(&model)?;
    /// let mut by_list = by_table.clone().with_list(&model.list()?)?;
    /// let level = by_list.build(&Points::one(&start.weights))?;
    /// assert_eq!(level, by_table.build(&Points::one(&start.weights))?);
    /// by_list.offer(&level)?;
    /// assert_eq!(by_list.level(), 1);
    ///
    /// // Another list is refused.
    /// let mut words = model.list()?.words().to_vec();
    /// words[0] += 1;
    /// assert_eq!(by_table.with_list(&List::from_words(&words)).unwrap_err().number(), 7);
    /// # Ok(())
    /// # }
    /// ```
    pub fn with_list(mut self, list: &List) -> Result<Certifier, Refusal> {
        // To build at too many points is always refused: with 7 for a list that is not the table's, else with 8 or 9. A list
        // without words would pass as none.
        let words = if list.words.is_empty() { &[0] } else { &list.words[..] };
        let mut nothing = slices::Level::default();
        let ended =
            slices::build(self.model.tables(), words, &self.slices, slices::BUILT_POINTS + 1, &[], &mut nothing);
        if ended.number == Rule::Certifier.number() {
            Refusal::unless(ended, Handed::Other)?;
        }
        self.list = list.clone();
        Ok(self)
    }

    /// The slices: the state, the standing level in slices with room for every other, and the rows.
    pub fn slices(&self) -> &slices::Certifier {
        &self.slices
    }

    /// The model.
    pub fn model(&self) -> &Model {
        &self.model
    }

    /// How many levels were accepted.
    pub fn level(&self) -> usize {
        self.slices.state[0]
    }

    /// The standing level: the last one that was accepted, or the zero vector at level 0. Whatever the slices were made
    /// from, it shows what stands there.
    pub fn standing(&self) -> Level {
        let Shape { states, observations, .. } = self.model.shape();
        let (vectors, points) = (self.slices.state[1], self.slices.state[2]);
        let standing = slices::Level {
            vectors,
            points,
            actions: self.slices.actions[..vectors].to_vec(),
            choices: self.slices.choices[..vectors * observations].to_vec(),
            masks: self.slices.masks[..vectors].to_vec(),
            entries: self.slices.entries[..vectors * states].to_vec(),
            corners: self.slices.corners[..states].to_vec(),
            weights: self.slices.weights[..points * states].to_vec(),
            values: self.slices.values[..points].to_vec(),
        };
        Level { states, observations, slices: standing }
    }

    /// The entry of an action's row of the fast informed bound at a state, in ticks: with as many steps as levels were
    /// accepted, no plan that opens with the action earns more from there. Panics outside the counts.
    pub fn informed(&self, action: usize, state: usize) -> i64 {
        self.slices.informed[self.model.row(action, state)]
    }

    /// The same of the QMDP rows, which have the state known after each step: no lower than [`Certifier::informed`]. Nothing
    /// else is worked out from them. Panics outside the counts.
    pub fn qmdp(&self, action: usize, state: usize) -> i64 {
        self.slices.qmdp[self.model.row(action, state)]
    }

    /// Both kinds of rows.
    fn rows(&self) -> (&[i64], &[i64]) {
        let Shape { states, actions, .. } = self.model.shape();
        (&self.slices.informed[..actions * states], &self.slices.qmdp[..actions * states])
    }

    /// Offers a level: it is accepted, and stands, exactly if it is within the limits and meets every backup inequality
    /// upon the level that stands; the rows are then stepped, whatever it has. Refused with 8 to 15 or 21, and then nothing
    /// changes.
    pub fn offer(&mut self, level: &Level) -> Result<(), Error> {
        let shape = self.model.shape();
        Length::test("states of the level", None, level.states, shape.states)?;
        Length::test("observations of the level", None, level.observations, shape.observations)?;
        let ended = slices::offer(self.model.tables(), &self.list.words, &mut self.slices, &level.slices);
        Ok(Refusal::unless(ended, Handed::Other)?)
    }

    /// New prices: the certifier goes on under a model of which only the rewards differ from its own. With d the largest change of
    /// any reward, up or down, and t levels accepted, entries of covered states fall by d × t, corners and rows rise by d × t, and
    /// point values by d × t times the total of their weights, each held at the end of its range: so its totals bracket every plan
    /// of the new model, and so do those of later levels. The level that stands is the one so changed, and its number stays. Refused
    /// with 23 where counts, T, O or the discount differ.
    ///
    /// ```
    /// use biidhaqun::{Certifier, Model, Points};
    ///
    /// # fn main() -> Result<(), Box<dyn std::error::Error>> {
    /// let (model, start) = Model::read(&std::fs::read("../../examples/dough.pomdp")?)?;
    /// let mut certifier = Certifier::open(&model)?;
    /// for _ in 0..2 {
    ///     certifier.offer(&certifier.build(&Points::one(&start.weights))?)?;
    /// }
    /// let at = certifier.totals(&start)?;
    /// assert_eq!((at.lower, at.upper), (10_000, 12_500));
    ///
    /// // Butter is dearer: a bread earns 0.30 less.
    /// let dearer = model.with_rewards(&[vec![-100, -100], vec![-1_000, 570]])?;
    /// certifier.reprice(&dearer)?;
    /// let at = certifier.totals(&start)?;
    /// assert_eq!((certifier.level(), at.lower, at.upper), (2, 4_000, 18_500));
    ///
    /// // Levels upon it are of the new model.
    /// certifier.offer(&certifier.build(&Points::one(&start.weights))?)?;
    /// assert_eq!(certifier.model(), &dearer);
    /// # Ok(())
    /// # }
    /// ```
    pub fn reprice(&mut self, new: &Model) -> Result<(), Refusal> {
        let ended = slices::reprice(self.model.tables(), new.tables(), &mut self.slices);
        Refusal::unless(ended, Handed::Other)?;
        self.model = new.clone();
        Ok(())
    }

    /// Offers stored levels, one after the other, and tells how many were accepted: what [`Certifier::offer`] does with each of
    /// them in turn, in one call. Upon a certifier that was just opened they are all tested anew, so that its totals bracket
    /// every plan, whoever stored them.
    ///
    /// A level that is refused leaves the certifier as it was and is not counted, and those behind it are offered all the same;
    /// so is one that has more vectors or points than a level may have. A list is not refused for what its levels hold: where
    /// each of them matters, compare the number with theirs. Before any is offered, a level for a model of other counts ends the
    /// call with [`Error::Length`].
    ///
    /// ```
    /// use biidhaqun::{Certifier, Model, Points};
    ///
    /// # fn main() -> Result<(), Box<dyn std::error::Error>> {
    /// let (model, start) = Model::read(&std::fs::read("../../examples/dough.pomdp")?)?;
    /// let mut certifier = Certifier::open(&model)?;
    /// let mut stored = Vec::new();
    /// for _ in 0..3 {
    ///     let level = certifier.build(&Points::one(&start.weights))?;
    ///     certifier.offer(&level)?;
    ///     stored.push(level);
    /// }
    ///
    /// let mut again = Certifier::open(&model)?;
    /// assert_eq!(again.replay(&stored)?, 3);
    /// assert_eq!(again, certifier);
    ///
    /// // Nothing is accepted that was tampered with.
    /// stored[2].entries_mut(0)[0] += 1;
    /// let mut again = Certifier::open(&model)?;
    /// assert_eq!(again.replay(&stored)?, 2);
    /// # Ok(())
    /// # }
    /// ```
    pub fn replay(&mut self, levels: &[Level]) -> Result<usize, Error> {
        let Shape { states, observations, .. } = self.model.shape();
        for (number, level) in levels.iter().enumerate() {
            Length::test("states of level", Some(number), level.states, states)?;
            Length::test("observations of level", Some(number), level.observations, observations)?;
        }
        let offers = slices::Offers::packed(levels.iter().map(|level| &level.slices), states, observations);
        let ended = slices::replay(self.model.tables(), &mut self.slices, &offers);
        Refusal::unless(slices::Refusal { number: ended.number, place: ended.place }, Handed::Other)?;
        Ok(ended.accepted)
    }

    /// The totals at a mixture. Refused with 16, 17, or 22 where no vector counts.
    pub fn totals(&self, mixture: &Mixture) -> Result<Totals, Error> {
        Length::test("weights of the mixture", None, mixture.weights.len(), self.model.shape().states)?;
        let at = slices::totals(self.model.tables(), &self.slices, &mixture.weights);
        Refusal::unless(slices::Refusal { number: at.number, place: at.place }, Handed::Other)?;
        let slices::Totals { lower, upper, gap, action, sawtooth, informed, .. } = at;
        Ok(Totals { lower, upper, gap, action, sawtooth, informed })
    }

    /// The bounds at many mixtures: those that [`Certifier::totals`] answers at each, with the certifier judged once. A mixture
    /// that is refused refuses its own answer alone. All are refused with 16.
    pub fn totals_at(&self, mixtures: &[Mixture]) -> Result<Vec<Result<Bounds, Refusal>>, Error> {
        let mut weights = Vec::new();
        for (number, mixture) in mixtures.iter().enumerate() {
            Length::test("weights of mixture", Some(number), mixture.weights.len(), self.model.shape().states)?;
            weights.extend_from_slice(&mixture.weights);
        }
        let mut answers = slices::Answers::roomy(mixtures.len());
        let ended = slices::each(self.model.tables(), &self.slices, &weights, mixtures.len(), &mut answers);
        Refusal::unless(ended, Handed::Other)?;
        let one = |at: usize| {
            let ended = slices::Refusal { number: answers.numbers[at].into(), place: 0 };
            Refusal::unless(ended, Handed::Other)?;
            let (lower, upper) = (answers.lower[at], answers.upper[at]);
            Ok(Bounds { lower, upper, gap: upper - lower, action: answers.actions[at].into() })
        };
        Ok((0..mixtures.len()).map(one).collect())
    }

    /// The totals over all mixtures whose weights are known within ranges, a low and a high for each state: at each of
    /// them some plan earns the lower total, and none earns more than the upper. The lower total is the largest, over the vectors
    /// that cover every state with a high above 0, of the sum of low × entry for entries of 0 or more and of high × entry for
    /// those below; the upper total is the sum of high × corner for corners of 0 or more and of low × corner for those below.
    /// Refused with 16, 24 where a low is above its high, 17, or 22 where no vector covers those states.
    ///
    /// ```
    /// use biidhaqun::{Certifier, Mixture, Model, Points};
    ///
    /// # fn main() -> Result<(), Box<dyn std::error::Error>> {
    /// let (model, start) = Model::read(&std::fs::read("../../examples/dough.pomdp")?)?;
    /// let mut certifier = Certifier::open(&model)?;
    /// for _ in 0..2 {
    ///     let level = certifier.build(&Points::one(&start.weights))?;
    ///     certifier.offer(&level)?;
    /// }
    ///
    /// // The dough is ready with 40 to 60 in 100, and not with as much.
    /// let (lows, highs) = (Mixture::new(&[40, 40]), Mixture::new(&[60, 60]));
    /// let within = certifier.totals_within(&lows, &highs)?;
    /// assert_eq!((within.lower, within.upper), (6_980, 29_320));
    /// for weights in [[40, 60], [50, 50], [60, 40]] {
    ///     let at = certifier.totals(&Mixture::new(&weights))?;
    ///     assert!(within.lower <= at.lower && at.upper <= within.upper);
    /// }
    /// # Ok(())
    /// # }
    /// ```
    pub fn totals_within(&self, lows: &Mixture, highs: &Mixture) -> Result<TotalsWithin, Error> {
        let states = self.model.shape().states;
        Length::test("lows", None, lows.weights.len(), states)?;
        Length::test("highs", None, highs.weights.len(), states)?;
        let at = slices::within(self.model.tables(), &self.slices, &lows.weights, &highs.weights);
        Refusal::unless(slices::Refusal { number: at.number, place: at.place }, Handed::Other)?;
        Ok(TotalsWithin { lower: at.lower, upper: at.upper })
    }

    /// Builds a level upon the standing one, at every corner and at these points; it will be accepted. If it is level t, and all
    /// levels below were built too, with no new prices among them, each of its entries is less than t ticks below what the plan
    /// earns that its vector names. It goes on with standing vectors that cover all states, and covers all itself. Refused with 8,
    /// 9, 12, or 22 where there is none.
    pub fn build(&self, points: &Points) -> Result<Level, Error> {
        let Shape { states, observations, .. } = self.model.shape();
        let count = points.weights.len();
        let weights = points.packed(states)?;
        let vectors = states + count;
        let mut level = slices::Level::zeros(states, observations, vectors, count);
        let tables = self.model.tables();
        let ended = slices::build(tables, &self.list.words, &self.slices, count, &weights, &mut level);
        Refusal::unless(ended, Handed::Other)?;
        Ok(Level { states, observations, slices: slices::Level { vectors, points: count, weights, ..level } })
    }

    /// Makes a level of the two files that a POMDP solver saves for a step, to be offered to this certifier; it will be
    /// accepted. The alpha file has for each vector an action and n decimals, in units of reward; the policy graph has for each
    /// node its number, the action, and a next node for each observation, or hyphens at the first level.
    ///
    /// Each entry is the lesser of the decimal rounded down to ticks and of its own backup rounded down, so that a decimal
    /// within its backup loses less than a tick. All vectors cover all states. Corners and points are those that
    /// [`Certifier::build`] makes. Refused with 1, 19, 20, 8, 9, 10, 21, 11, 12, in this order.
    ///
    /// ```
    /// use biidhaqun::{Certifier, Model, Points};
    ///
    /// # fn main() -> Result<(), Box<dyn std::error::Error>> {
    /// let (model, start) = Model::read(&std::fs::read("../../examples/dough.pomdp")?)?;
    /// let mut certifier = Certifier::open(&model)?;
    /// let alpha = b"0\n-1.000000 -1.000000\n\n1\n-10.000000 6.000000\n\n";
    /// let graph = b"0 0  - -\n1 1  - -\n";
    /// let level = certifier.adopt(alpha, graph, &Points::one(&start.weights))?;
    /// certifier.offer(&level)?;
    /// assert_eq!(certifier.totals(&start)?.lower, -10_000);
    /// # Ok(())
    /// # }
    /// ```
    pub fn adopt(&self, alpha: &[u8], graph: &[u8], points: &Points) -> Result<Level, Error> {
        let Shape { states, observations, .. } = self.model.shape();
        let count = points.weights.len();
        let weights = points.packed(states)?;
        let mut level = slices::Level::roomy(states, observations);
        let made = slices::adopt(self.model.tables(), &self.slices, alpha, graph, &weights, count, &mut level);
        Refusal::unless(slices::Refusal { number: made.number, place: made.place }, Handed::Solver)?;
        let level = slices::Level { vectors: made.vectors, points: count, weights, ..level };
        Ok(Level::of(level, states, observations))
    }
}

/// Equal are certifiers of the same model at the same level, upon which the same level and the same rows stand; what lies past
/// their counts is not looked at, nor whether they work from a list.
impl PartialEq for Certifier {
    fn eq(&self, other: &Certifier) -> bool {
        self.model == other.model
            && self.level() == other.level()
            && self.standing() == other.standing()
            && self.rows() == other.rows()
    }
}

impl Eq for Certifier {}

/// Slices that are as long as others, at least.
fn grown(mut slices: slices::Certifier, room: &slices::Certifier) -> slices::Certifier {
    fn grow<Cell: Clone + Default>(cells: &mut Vec<Cell>, room: &[Cell]) {
        cells.resize(cells.len().max(room.len()), Cell::default());
    }
    grow(&mut slices.actions, &room.actions);
    grow(&mut slices.choices, &room.choices);
    grow(&mut slices.masks, &room.masks);
    grow(&mut slices.entries, &room.entries);
    grow(&mut slices.corners, &room.corners);
    grow(&mut slices.weights, &room.weights);
    grow(&mut slices.values, &room.values);
    grow(&mut slices.informed, &room.informed);
    grow(&mut slices.qmdp, &room.qmdp);
    slices
}
