//! Models.

use crate::error::{Error, Handed, Length, Refusal};
use crate::parts::{Graph, List, Mixture};
use crate::shape::Shape;
use crate::slices::{self, Certifier, Tables, STATES};

/// A model within the limits: a POMDP in thousandths and ticks.
///
/// Whichever way it was made, the library has accepted its tables: counts and numbers are within their limits, and each row
/// of T and of O totals 1,000.
///
/// ```
/// use biidhaqun::{Action, Model};
///
/// // The dough of examples/dough.pomdp: wait, or bake.
/// let even = vec![vec![500, 500], vec![500, 500]];
/// let wait = Action {
///     transition: vec![vec![500, 500], vec![0, 1_000]],
///     observation: vec![vec![800, 200], vec![300, 700]],
///     reward: vec![-100, -100],
/// };
/// let bake = Action {
///     transition: vec![vec![1_000, 0], vec![1_000, 0]],
///     observation: even,
///     reward: vec![-1_000, 600],
/// };
/// let model = Model::new(900, &[wait, bake])?;
/// assert_eq!((model.transition(0, 0, 1), model.observation(0, 1, 1), model.reward(1, 1)), (500, 700, 600));
/// # Ok::<(), biidhaqun::Error>(())
/// ```
#[derive(Clone, Debug, PartialEq, Eq, Hash)]
pub struct Model {
    tables: Tables,
}

/// What an action does, and what it earns.
#[derive(Clone, Debug, Default, PartialEq, Eq, Hash)]
pub struct Action {
    /// T: for each state left, a row with the thousandths of each state reached.
    pub transition: Vec<Vec<u16>>,
    /// O: for each state reached, a row with the thousandths of each observation.
    pub observation: Vec<Vec<u16>>,
    /// R: for each state left, the reward in ticks (hundredths of a unit).
    pub reward: Vec<i64>,
}

impl Model {
    /// The model with this discount in thousandths and these actions. The first action says how many states and
    /// observations there are. Refused with 3, 5 or 6.
    pub fn new(discount: u64, actions: &[Action]) -> Result<Model, Error> {
        let first = actions.first();
        let states = first.map_or(0, |action| action.reward.len());
        let observations = first.and_then(|action| action.observation.first()).map_or(0, Vec::len);
        let mut tables = Tables { states, actions: actions.len(), observations, discount, ..Tables::default() };
        for (number, action) in actions.iter().enumerate() {
            let at = Some(number);
            Length::test("rows of T of action", at, action.transition.len(), states)?;
            Length::test("rows of O of action", at, action.observation.len(), states)?;
            Length::test("rewards of action", at, action.reward.len(), states)?;
            for row in &action.transition {
                Length::test("numbers in a row of T of action", at, row.len(), states)?;
                tables.transition.extend_from_slice(row);
            }
            for row in &action.observation {
                Length::test("numbers in a row of O of action", at, row.len(), observations)?;
                tables.observation.extend_from_slice(row);
            }
            tables.reward.extend_from_slice(&action.reward);
        }
        Ok(Model::from_tables(tables)?)
    }

    /// The model of these tables. Refused with 3, 5 or 6; what lies past the counts is cut off.
    pub fn from_tables(mut tables: Tables) -> Result<Model, Refusal> {
        let (states, actions) = (tables.states.min(STATES), tables.actions.min(slices::ACTIONS));
        let mut room = Certifier::roomy(states, actions, tables.observations.min(slices::OBSERVATIONS));
        Refusal::unless(slices::open(&tables, &mut room), Handed::Tables(tables.states))?;
        cut(&mut tables);
        Ok(Model { tables })
    }

    /// Reads a model file: the model, and the start numbers as weights that total 100. Refused with 1 to 6.
    pub fn read(file: &[u8]) -> Result<(Model, Mixture), Refusal> {
        let mut tables = Tables::roomy();
        let mut start = [0; STATES];
        let Tables { transition, observation, reward, .. } = &mut tables;
        let read = slices::read(file, transition, observation, reward, &mut start);
        Refusal::unless(slices::Refusal { number: read.number, place: read.place }, Handed::File)?;
        tables.states = read.states;
        tables.actions = read.actions;
        tables.observations = read.observations;
        tables.discount = read.discount;
        cut(&mut tables);
        let weights = start[..tables.states].iter().map(|&number| u32::from(number)).collect();
        Ok((Model { tables }, Mixture { weights }))
    }

    /// The same model at other prices: for each action the reward in ticks at each state. Refused with 3.
    pub fn with_rewards(&self, rewards: &[Vec<i64>]) -> Result<Model, Error> {
        let Shape { states, actions, .. } = self.shape();
        Length::test("actions with rewards", None, rewards.len(), actions)?;
        for (number, row) in rewards.iter().enumerate() {
            Length::test("rewards of action", Some(number), row.len(), states)?;
        }
        Ok(Model::from_tables(Tables { reward: rewards.concat(), ..self.tables.clone() })?)
    }

    /// The transitions as a list, to be worked from by [`Certifier::with_list`](crate::Certifier::with_list). A model is never
    /// refused.
    ///
    /// ```
    /// use biidhaqun::Model;
    ///
    /// # fn main() -> Result<(), Box<dyn std::error::Error>> {
    /// let (model, _) = Model::read(&std::fs::read("../../examples/dough.pomdp")?)?;
    /// // Where the four columns begin and the last one ends; then the five cells above 0, each with the state left.
    /// let (unready, ready) = (0 << 16, 1 << 16);
    /// assert_eq!(model.list()?.words()[..5], [5, 6, 8, 10, 10]);
    /// assert_eq!(model.list()?.words()[5..], [unready + 500, unready + 500, ready + 1_000, unready + 1_000, ready + 1_000]);
    /// # Ok(())
    /// # }
    /// ```
    pub fn list(&self) -> Result<List, Refusal> {
        let columns = self.tables.actions * self.tables.states;
        let cells = self.tables.transition.iter().filter(|&&cell| cell > 0).count();
        let mut words = vec![0; columns + 1 + cells];
        Refusal::unless(slices::list(&self.tables, &mut words), Handed::Tables(self.tables.states))?;
        Ok(List { words })
    }

    /// The tables, as the library takes them.
    pub fn tables(&self) -> &Tables {
        &self.tables
    }

    /// The counts.
    pub fn shape(&self) -> Shape {
        Shape::of(&self.tables)
    }

    /// The discount, in thousandths.
    pub fn discount(&self) -> u64 {
        self.tables.discount
    }

    /// T(s, a, s'): how likely an action leads from a state to another, in thousandths. Panics outside the counts, as
    /// indexing does.
    pub fn transition(&self, state: usize, action: usize, reached: usize) -> u64 {
        let states = self.tables.states;
        u64::from(self.tables.transition[self.row(action, state) * states + below(reached, states)])
    }

    /// O(a, s', o): how likely an observation is where an action led to a state, in thousandths. Panics outside the counts.
    pub fn observation(&self, action: usize, reached: usize, observation: usize) -> u64 {
        let observations = self.tables.observations;
        let cell = self.row(action, reached) * observations + below(observation, observations);
        u64::from(self.tables.observation[cell])
    }

    /// R(s, a): the reward of an action in a state, in ticks. Panics outside the counts.
    pub fn reward(&self, state: usize, action: usize) -> i64 {
        self.tables.reward[self.row(action, state)]
    }

    /// The number of an action's row at a state.
    pub(crate) fn row(&self, action: usize, state: usize) -> usize {
        below(action, self.tables.actions) * self.tables.states + below(state, self.tables.states)
    }

    /// What a plan graph earns at least, in ticks, if it is entered at this node and state with so many steps left (0 to
    /// 4), rounded down at each step. Refused with 18.
    ///
    /// What is proved: it is the equation of docs/RULES.md, with its rounding.
    pub fn worth(&self, graph: &Graph, node: usize, state: usize, steps: usize) -> Result<i64, Error> {
        Length::test("observations of the plan graph", None, graph.observations, self.tables.observations)?;
        let worth = slices::worth(&self.tables, &graph.slices, node, state, steps);
        Refusal::unless(slices::Refusal { number: worth.number, place: worth.place }, Handed::Other)?;
        Ok(worth.ticks)
    }
}

/// Writes a file whose rewards depend on what follows, `R: a : s : s' : o r`, as a model file: with the same T, O, discount and
/// start, and for each action and state the expected reward. Stars stand for all, later statements supersede outcome by outcome,
/// and outcomes that none names earn 0. Refused with 1 to 6, 25 where there are over 16 states, or 26 where an expected reward is
/// no whole number of ticks.
///
/// What is proved: the bytes are those of the definition, and [`Model::read`] has the same T, O, discount and start of them, and
/// exactly the expected rewards.
///
/// ```
/// use biidhaqun::{convert, Model};
///
/// # fn main() -> Result<(), Box<dyn std::error::Error>> {
/// let file = std::fs::read("../../examples/outcomes/glazing.pomdp")?;
/// let written = convert(&file)?;
/// assert_eq!(written, std::fs::read("../../examples/outcomes/glazing.written")?);
/// let (model, _) = Model::read(&written)?;
/// assert_eq!((model.reward(0, 1), model.reward(1, 1)), (-84, 436));
/// # Ok(())
/// # }
/// ```
pub fn convert(file: &[u8]) -> Result<Vec<u8>, Refusal> {
    let mut written = vec![0; slices::FILE_BYTES];
    let ended = slices::convert(file, &mut written);
    Refusal::unless(slices::Refusal { number: ended.number, place: ended.place }, Handed::File)?;
    written.truncate(ended.length);
    Ok(written)
}

/// Cuts off what lies past the counts.
fn cut(tables: &mut Tables) {
    let rows = tables.actions * tables.states;
    tables.transition.truncate(rows * tables.states);
    tables.observation.truncate(rows * tables.observations);
    tables.reward.truncate(rows);
}

/// An index that is below its count.
fn below(index: usize, count: usize) -> usize {
    assert!(index < count, "index {} of {}", index, count);
    index
}
