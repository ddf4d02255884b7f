//! The library's calls over slices. Nothing but this module is unsafe.
//!
//! A slice goes over as its pointer and its length. The library reads and writes inside these lengths only, writes nothing
//! that is lent to be read, keeps no pointer, and answers whatever the content. That is so of a library of this layout: each call
//! asks for its version first.

use crate::slices::{
    Adopted, Answers, Certifier, Conversion, Graph, Level, Offers, Reading, Refusal, Replayed, Tables, Totals,
    TotalsWithin, Worth, VERSION,
};

mod library {
    use super::{Adopted, Conversion, Reading, Refusal, Replayed, Totals, TotalsWithin, Worth};

    extern "C" {
        pub fn biidhaqun_version() -> u64;

        pub fn biidhaqun_read(
            file: *const u8,
            file_length: usize,
            transition: *mut u16,
            transition_length: usize,
            observation: *mut u16,
            observation_length: usize,
            reward: *mut i64,
            reward_length: usize,
            start: *mut u16,
            start_length: usize,
        ) -> Reading;

        pub fn biidhaqun_convert(
            file: *const u8,
            file_length: usize,
            output: *mut u8,
            output_length: usize,
        ) -> Conversion;

        pub fn biidhaqun_open(
            states: usize,
            actions: usize,
            observations: usize,
            discount: u64,
            transition: *const u16,
            transition_length: usize,
            observation: *const u16,
            observation_length: usize,
            reward: *const i64,
            reward_length: usize,
            state: *mut usize,
            state_length: usize,
            standing_actions: *mut u8,
            standing_actions_length: usize,
            choices: *mut u16,
            choices_length: usize,
            masks: *mut u64,
            masks_length: usize,
            entries: *mut i64,
            entries_length: usize,
            corners: *mut i64,
            corners_length: usize,
            weights: *const u32,
            weights_length: usize,
            values: *const i64,
            values_length: usize,
            informed: *mut i64,
            informed_length: usize,
            qmdp: *mut i64,
            qmdp_length: usize,
        ) -> Refusal;

        pub fn biidhaqun_offer(
            states: usize,
            actions: usize,
            observations: usize,
            discount: u64,
            transition: *const u16,
            transition_length: usize,
            list: *const u32,
            list_length: usize,
            observation: *const u16,
            observation_length: usize,
            reward: *const i64,
            reward_length: usize,
            state: *mut usize,
            state_length: usize,
            standing_actions: *mut u8,
            standing_actions_length: usize,
            choices: *mut u16,
            choices_length: usize,
            masks: *mut u64,
            masks_length: usize,
            entries: *mut i64,
            entries_length: usize,
            corners: *mut i64,
            corners_length: usize,
            weights: *mut u32,
            weights_length: usize,
            values: *mut i64,
            values_length: usize,
            informed: *mut i64,
            informed_length: usize,
            qmdp: *mut i64,
            qmdp_length: usize,
            vectors: usize,
            points: usize,
            new_actions: *const u8,
            new_actions_length: usize,
            new_choices: *const u16,
            new_choices_length: usize,
            new_masks: *const u64,
            new_masks_length: usize,
            new_entries: *const i64,
            new_entries_length: usize,
            new_corners: *const i64,
            new_corners_length: usize,
            new_weights: *const u32,
            new_weights_length: usize,
            new_values: *const i64,
            new_values_length: usize,
        ) -> Refusal;

        pub fn biidhaqun_replay(
            states: usize,
            actions: usize,
            observations: usize,
            discount: u64,
            transition: *const u16,
            transition_length: usize,
            observation: *const u16,
            observation_length: usize,
            reward: *const i64,
            reward_length: usize,
            state: *mut usize,
            state_length: usize,
            standing_actions: *mut u8,
            standing_actions_length: usize,
            choices: *mut u16,
            choices_length: usize,
            masks: *mut u64,
            masks_length: usize,
            entries: *mut i64,
            entries_length: usize,
            corners: *mut i64,
            corners_length: usize,
            weights: *mut u32,
            weights_length: usize,
            values: *mut i64,
            values_length: usize,
            informed: *mut i64,
            informed_length: usize,
            qmdp: *mut i64,
            qmdp_length: usize,
            count: usize,
            block_vectors: usize,
            block_points: usize,
            vectors: *const usize,
            vectors_length: usize,
            points: *const usize,
            points_length: usize,
            new_actions: *const u8,
            new_actions_length: usize,
            new_choices: *const u16,
            new_choices_length: usize,
            new_masks: *const u64,
            new_masks_length: usize,
            new_entries: *const i64,
            new_entries_length: usize,
            new_corners: *const i64,
            new_corners_length: usize,
            new_weights: *const u32,
            new_weights_length: usize,
            new_values: *const i64,
            new_values_length: usize,
        ) -> Replayed;

        pub fn biidhaqun_totals(
            states: usize,
            actions: usize,
            observations: usize,
            discount: u64,
            transition: *const u16,
            transition_length: usize,
            observation: *const u16,
            observation_length: usize,
            reward: *const i64,
            reward_length: usize,
            state: *const usize,
            state_length: usize,
            standing_actions: *const u8,
            standing_actions_length: usize,
            masks: *const u64,
            masks_length: usize,
            entries: *const i64,
            entries_length: usize,
            corners: *const i64,
            corners_length: usize,
            weights: *const u32,
            weights_length: usize,
            values: *const i64,
            values_length: usize,
            informed: *const i64,
            informed_length: usize,
            qmdp: *const i64,
            qmdp_length: usize,
            mixture: *const u32,
            mixture_length: usize,
        ) -> Totals;

        pub fn biidhaqun_each(
            states: usize,
            actions: usize,
            observations: usize,
            discount: u64,
            transition: *const u16,
            transition_length: usize,
            observation: *const u16,
            observation_length: usize,
            reward: *const i64,
            reward_length: usize,
            state: *const usize,
            state_length: usize,
            standing_actions: *const u8,
            standing_actions_length: usize,
            masks: *const u64,
            masks_length: usize,
            entries: *const i64,
            entries_length: usize,
            corners: *const i64,
            corners_length: usize,
            weights: *const u32,
            weights_length: usize,
            values: *const i64,
            values_length: usize,
            informed: *const i64,
            informed_length: usize,
            qmdp: *const i64,
            qmdp_length: usize,
            mixtures: *const u32,
            mixtures_length: usize,
            count: usize,
            numbers: *mut u8,
            numbers_length: usize,
            lower: *mut i64,
            lower_length: usize,
            upper: *mut i64,
            upper_length: usize,
            action: *mut u8,
            action_length: usize,
        ) -> Refusal;

        pub fn biidhaqun_within(
            states: usize,
            actions: usize,
            observations: usize,
            discount: u64,
            transition: *const u16,
            transition_length: usize,
            observation: *const u16,
            observation_length: usize,
            reward: *const i64,
            reward_length: usize,
            state: *const usize,
            state_length: usize,
            standing_actions: *const u8,
            standing_actions_length: usize,
            masks: *const u64,
            masks_length: usize,
            entries: *const i64,
            entries_length: usize,
            corners: *const i64,
            corners_length: usize,
            weights: *const u32,
            weights_length: usize,
            values: *const i64,
            values_length: usize,
            informed: *const i64,
            informed_length: usize,
            qmdp: *const i64,
            qmdp_length: usize,
            lows: *const u32,
            lows_length: usize,
            highs: *const u32,
            highs_length: usize,
        ) -> TotalsWithin;

        pub fn biidhaqun_build(
            states: usize,
            actions: usize,
            observations: usize,
            discount: u64,
            transition: *const u16,
            transition_length: usize,
            list: *const u32,
            list_length: usize,
            observation: *const u16,
            observation_length: usize,
            reward: *const i64,
            reward_length: usize,
            state: *const usize,
            state_length: usize,
            standing_actions: *const u8,
            standing_actions_length: usize,
            masks: *const u64,
            masks_length: usize,
            entries: *const i64,
            entries_length: usize,
            corners: *const i64,
            corners_length: usize,
            weights: *const u32,
            weights_length: usize,
            values: *const i64,
            values_length: usize,
            informed: *const i64,
            informed_length: usize,
            qmdp: *const i64,
            qmdp_length: usize,
            count: usize,
            points: *const u32,
            points_length: usize,
            new_actions: *mut u8,
            new_actions_length: usize,
            new_choices: *mut u16,
            new_choices_length: usize,
            new_masks: *mut u64,
            new_masks_length: usize,
            new_entries: *mut i64,
            new_entries_length: usize,
            new_corners: *mut i64,
            new_corners_length: usize,
            new_values: *mut i64,
            new_values_length: usize,
        ) -> Refusal;

        pub fn biidhaqun_worth(
            states: usize,
            actions: usize,
            observations: usize,
            discount: u64,
            transition: *const u16,
            transition_length: usize,
            observation: *const u16,
            observation_length: usize,
            reward: *const i64,
            reward_length: usize,
            nodes: usize,
            node_actions: *const u8,
            node_actions_length: usize,
            next: *const u16,
            next_length: usize,
            node: usize,
            state: usize,
            steps: usize,
        ) -> Worth;

        pub fn biidhaqun_adopt(
            states: usize,
            actions: usize,
            observations: usize,
            discount: u64,
            transition: *const u16,
            transition_length: usize,
            observation: *const u16,
            observation_length: usize,
            reward: *const i64,
            reward_length: usize,
            state: *const usize,
            state_length: usize,
            standing_actions: *const u8,
            standing_actions_length: usize,
            masks: *const u64,
            masks_length: usize,
            entries: *const i64,
            entries_length: usize,
            corners: *const i64,
            corners_length: usize,
            weights: *const u32,
            weights_length: usize,
            values: *const i64,
            values_length: usize,
            informed: *const i64,
            informed_length: usize,
            qmdp: *const i64,
            qmdp_length: usize,
            alpha: *const u8,
            alpha_length: usize,
            graph: *const u8,
            graph_length: usize,
            points: *const u32,
            points_length: usize,
            count: usize,
            new_actions: *mut u8,
            new_actions_length: usize,
            new_choices: *mut u16,
            new_choices_length: usize,
            new_masks: *mut u64,
            new_masks_length: usize,
            new_entries: *mut i64,
            new_entries_length: usize,
            new_corners: *mut i64,
            new_corners_length: usize,
            new_values: *mut i64,
            new_values_length: usize,
        ) -> Adopted;

        pub fn biidhaqun_list(
            states: usize,
            actions: usize,
            observations: usize,
            discount: u64,
            transition: *const u16,
            transition_length: usize,
            observation: *const u16,
            observation_length: usize,
            reward: *const i64,
            reward_length: usize,
            list: *mut u32,
            list_length: usize,
        ) -> Refusal;

        pub fn biidhaqun_reprice(
            states: usize,
            actions: usize,
            observations: usize,
            discount: u64,
            transition: *const u16,
            transition_length: usize,
            observation: *const u16,
            observation_length: usize,
            reward: *const i64,
            reward_length: usize,
            new_states: usize,
            new_actions: usize,
            new_observations: usize,
            new_discount: u64,
            new_transition: *const u16,
            new_transition_length: usize,
            new_observation: *const u16,
            new_observation_length: usize,
            new_reward: *const i64,
            new_reward_length: usize,
            state: *const usize,
            state_length: usize,
            standing_actions: *const u8,
            standing_actions_length: usize,
            masks: *const u64,
            masks_length: usize,
            entries: *mut i64,
            entries_length: usize,
            corners: *mut i64,
            corners_length: usize,
            weights: *const u32,
            weights_length: usize,
            values: *mut i64,
            values_length: usize,
            informed: *mut i64,
            informed_length: usize,
            qmdp: *mut i64,
            qmdp_length: usize,
        ) -> Refusal;
    }
}

/// The version of the layout that the linked library has: [`VERSION`](crate::slices::VERSION), where both are of one source.
pub fn version() -> u64 {
    unsafe { library::biidhaqun_version() }
}

/// Panics where the linked library has another layout than this crate: it would not take the slices for what they are.
fn tested(linked: u64) {
    assert!(
        linked == VERSION,
        "the linked libbiidhaqun.a has version {} of the layout, and the crate biidhaqun has {}: build both of one source",
        linked,
        VERSION
    );
}

/// Reads a model file: its counts and discount are answered, its tables and its start numbers in hundredths written; or 1
/// to 6, with 3 at 0 where a table has no room, or 100 where the start numbers have none.
pub fn read(
    file: &[u8],
    transition: &mut [u16],
    observation: &mut [u16],
    reward: &mut [i64],
    start: &mut [u16],
) -> Reading {
    tested(version());
    unsafe {
        library::biidhaqun_read(
            file.as_ptr(),
            file.len(),
            transition.as_mut_ptr(),
            transition.len(),
            observation.as_mut_ptr(),
            observation.len(),
            reward.as_mut_ptr(),
            reward.len(),
            start.as_mut_ptr(),
            start.len(),
        )
    }
}

/// Writes a file whose rewards depend on what follows as a model file, at the front of the output; or 27, 1 to 6, 25, 26.
pub fn convert(file: &[u8], output: &mut [u8]) -> Conversion {
    tested(version());
    unsafe { library::biidhaqun_convert(file.as_ptr(), file.len(), output.as_mut_ptr(), output.len()) }
}

/// Opens a certifier on tables: level 0 stands, and the rows are zeros; or 3, 5, 6, 9.
pub fn open(tables: &Tables, certifier: &mut Certifier) -> Refusal {
    tested(version());
    unsafe {
        library::biidhaqun_open(
            tables.states,
            tables.actions,
            tables.observations,
            tables.discount,
            tables.transition.as_ptr(),
            tables.transition.len(),
            tables.observation.as_ptr(),
            tables.observation.len(),
            tables.reward.as_ptr(),
            tables.reward.len(),
            certifier.state.as_mut_ptr(),
            certifier.state.len(),
            certifier.actions.as_mut_ptr(),
            certifier.actions.len(),
            certifier.choices.as_mut_ptr(),
            certifier.choices.len(),
            certifier.masks.as_mut_ptr(),
            certifier.masks.len(),
            certifier.entries.as_mut_ptr(),
            certifier.entries.len(),
            certifier.corners.as_mut_ptr(),
            certifier.corners.len(),
            certifier.weights.as_ptr(),
            certifier.weights.len(),
            certifier.values.as_ptr(),
            certifier.values.len(),
            certifier.informed.as_mut_ptr(),
            certifier.informed.len(),
            certifier.qmdp.as_mut_ptr(),
            certifier.qmdp.len(),
        )
    }
}

/// Offers a level: accepted, it stands, the first number of the state is one more, and the rows are stepped; or 7 to 12, 21,
/// 13, 14, 15. A list that is not empty must be the tables' own ([`list`]), else 7: backups are then worked out from it, with the
/// same answers.
pub fn offer(tables: &Tables, list: &[u32], certifier: &mut Certifier, level: &Level) -> Refusal {
    tested(version());
    unsafe {
        library::biidhaqun_offer(
            tables.states,
            tables.actions,
            tables.observations,
            tables.discount,
            tables.transition.as_ptr(),
            tables.transition.len(),
            list.as_ptr(),
            list.len(),
            tables.observation.as_ptr(),
            tables.observation.len(),
            tables.reward.as_ptr(),
            tables.reward.len(),
            certifier.state.as_mut_ptr(),
            certifier.state.len(),
            certifier.actions.as_mut_ptr(),
            certifier.actions.len(),
            certifier.choices.as_mut_ptr(),
            certifier.choices.len(),
            certifier.masks.as_mut_ptr(),
            certifier.masks.len(),
            certifier.entries.as_mut_ptr(),
            certifier.entries.len(),
            certifier.corners.as_mut_ptr(),
            certifier.corners.len(),
            certifier.weights.as_mut_ptr(),
            certifier.weights.len(),
            certifier.values.as_mut_ptr(),
            certifier.values.len(),
            certifier.informed.as_mut_ptr(),
            certifier.informed.len(),
            certifier.qmdp.as_mut_ptr(),
            certifier.qmdp.len(),
            level.vectors,
            level.points,
            level.actions.as_ptr(),
            level.actions.len(),
            level.choices.as_ptr(),
            level.choices.len(),
            level.masks.as_ptr(),
            level.masks.len(),
            level.entries.as_ptr(),
            level.entries.len(),
            level.corners.as_ptr(),
            level.corners.len(),
            level.weights.as_ptr(),
            level.weights.len(),
            level.values.as_ptr(),
            level.values.len(),
        )
    }
}

/// Offers the levels of a list one after the other, each as by [`offer`], and answers how many were accepted: those that are
/// refused leave the certifier as it was; or 7, 9 for them all.
pub fn replay(tables: &Tables, certifier: &mut Certifier, offers: &Offers) -> Replayed {
    tested(version());
    unsafe {
        library::biidhaqun_replay(
            tables.states,
            tables.actions,
            tables.observations,
            tables.discount,
            tables.transition.as_ptr(),
            tables.transition.len(),
            tables.observation.as_ptr(),
            tables.observation.len(),
            tables.reward.as_ptr(),
            tables.reward.len(),
            certifier.state.as_mut_ptr(),
            certifier.state.len(),
            certifier.actions.as_mut_ptr(),
            certifier.actions.len(),
            certifier.choices.as_mut_ptr(),
            certifier.choices.len(),
            certifier.masks.as_mut_ptr(),
            certifier.masks.len(),
            certifier.entries.as_mut_ptr(),
            certifier.entries.len(),
            certifier.corners.as_mut_ptr(),
            certifier.corners.len(),
            certifier.weights.as_mut_ptr(),
            certifier.weights.len(),
            certifier.values.as_mut_ptr(),
            certifier.values.len(),
            certifier.informed.as_mut_ptr(),
            certifier.informed.len(),
            certifier.qmdp.as_mut_ptr(),
            certifier.qmdp.len(),
            offers.count,
            offers.block_vectors,
            offers.block_points,
            offers.vectors.as_ptr(),
            offers.vectors.len(),
            offers.points.as_ptr(),
            offers.points.len(),
            offers.actions.as_ptr(),
            offers.actions.len(),
            offers.choices.as_ptr(),
            offers.choices.len(),
            offers.masks.as_ptr(),
            offers.masks.len(),
            offers.entries.as_ptr(),
            offers.entries.len(),
            offers.corners.as_ptr(),
            offers.corners.len(),
            offers.weights.as_ptr(),
            offers.weights.len(),
            offers.values.as_ptr(),
            offers.values.len(),
        )
    }
}

/// The totals at a mixture; or 7, 16, 17, 22.
pub fn totals(tables: &Tables, certifier: &Certifier, mixture: &[u32]) -> Totals {
    tested(version());
    unsafe {
        library::biidhaqun_totals(
            tables.states,
            tables.actions,
            tables.observations,
            tables.discount,
            tables.transition.as_ptr(),
            tables.transition.len(),
            tables.observation.as_ptr(),
            tables.observation.len(),
            tables.reward.as_ptr(),
            tables.reward.len(),
            certifier.state.as_ptr(),
            certifier.state.len(),
            certifier.actions.as_ptr(),
            certifier.actions.len(),
            certifier.masks.as_ptr(),
            certifier.masks.len(),
            certifier.entries.as_ptr(),
            certifier.entries.len(),
            certifier.corners.as_ptr(),
            certifier.corners.len(),
            certifier.weights.as_ptr(),
            certifier.weights.len(),
            certifier.values.as_ptr(),
            certifier.values.len(),
            certifier.informed.as_ptr(),
            certifier.informed.len(),
            certifier.qmdp.as_ptr(),
            certifier.qmdp.len(),
            mixture.as_ptr(),
            mixture.len(),
        )
    }
}

/// The totals at so many mixtures, whose weights lie one after the other: what [`totals`] answers at each; or 7, 16, 17, 9
/// for them all.
pub fn each(tables: &Tables, certifier: &Certifier, mixtures: &[u32], count: usize, answers: &mut Answers) -> Refusal {
    tested(version());
    unsafe {
        library::biidhaqun_each(
            tables.states,
            tables.actions,
            tables.observations,
            tables.discount,
            tables.transition.as_ptr(),
            tables.transition.len(),
            tables.observation.as_ptr(),
            tables.observation.len(),
            tables.reward.as_ptr(),
            tables.reward.len(),
            certifier.state.as_ptr(),
            certifier.state.len(),
            certifier.actions.as_ptr(),
            certifier.actions.len(),
            certifier.masks.as_ptr(),
            certifier.masks.len(),
            certifier.entries.as_ptr(),
            certifier.entries.len(),
            certifier.corners.as_ptr(),
            certifier.corners.len(),
            certifier.weights.as_ptr(),
            certifier.weights.len(),
            certifier.values.as_ptr(),
            certifier.values.len(),
            certifier.informed.as_ptr(),
            certifier.informed.len(),
            certifier.qmdp.as_ptr(),
            certifier.qmdp.len(),
            mixtures.as_ptr(),
            mixtures.len(),
            count,
            answers.numbers.as_mut_ptr(),
            answers.numbers.len(),
            answers.lower.as_mut_ptr(),
            answers.lower.len(),
            answers.upper.as_mut_ptr(),
            answers.upper.len(),
            answers.actions.as_mut_ptr(),
            answers.actions.len(),
        )
    }
}

/// The totals over all mixtures whose weights lie within ranges; or 7, 16, 24, 17, 22.
pub fn within(tables: &Tables, certifier: &Certifier, lows: &[u32], highs: &[u32]) -> TotalsWithin {
    tested(version());
    unsafe {
        library::biidhaqun_within(
            tables.states,
            tables.actions,
            tables.observations,
            tables.discount,
            tables.transition.as_ptr(),
            tables.transition.len(),
            tables.observation.as_ptr(),
            tables.observation.len(),
            tables.reward.as_ptr(),
            tables.reward.len(),
            certifier.state.as_ptr(),
            certifier.state.len(),
            certifier.actions.as_ptr(),
            certifier.actions.len(),
            certifier.masks.as_ptr(),
            certifier.masks.len(),
            certifier.entries.as_ptr(),
            certifier.entries.len(),
            certifier.corners.as_ptr(),
            certifier.corners.len(),
            certifier.weights.as_ptr(),
            certifier.weights.len(),
            certifier.values.as_ptr(),
            certifier.values.len(),
            certifier.informed.as_ptr(),
            certifier.informed.len(),
            certifier.qmdp.as_ptr(),
            certifier.qmdp.len(),
            lows.as_ptr(),
            lows.len(),
            highs.as_ptr(),
            highs.len(),
        )
    }
}

/// Builds the next level upon the standing one, at so many points: its actions, choices, masks, entries, corners and values
/// are written; or 7, 8, 9, 12, 22. Its vectors are states + count, its points count, its weights the points: that is left to the
/// caller to say in the level. A list is handed in as to [`offer`].
pub fn build(
    tables: &Tables,
    list: &[u32],
    certifier: &Certifier,
    count: usize,
    points: &[u32],
    level: &mut Level,
) -> Refusal {
    tested(version());
    unsafe {
        library::biidhaqun_build(
            tables.states,
            tables.actions,
            tables.observations,
            tables.discount,
            tables.transition.as_ptr(),
            tables.transition.len(),
            list.as_ptr(),
            list.len(),
            tables.observation.as_ptr(),
            tables.observation.len(),
            tables.reward.as_ptr(),
            tables.reward.len(),
            certifier.state.as_ptr(),
            certifier.state.len(),
            certifier.actions.as_ptr(),
            certifier.actions.len(),
            certifier.masks.as_ptr(),
            certifier.masks.len(),
            certifier.entries.as_ptr(),
            certifier.entries.len(),
            certifier.corners.as_ptr(),
            certifier.corners.len(),
            certifier.weights.as_ptr(),
            certifier.weights.len(),
            certifier.values.as_ptr(),
            certifier.values.len(),
            certifier.informed.as_ptr(),
            certifier.informed.len(),
            certifier.qmdp.as_ptr(),
            certifier.qmdp.len(),
            count,
            points.as_ptr(),
            points.len(),
            level.actions.as_mut_ptr(),
            level.actions.len(),
            level.choices.as_mut_ptr(),
            level.choices.len(),
            level.masks.as_mut_ptr(),
            level.masks.len(),
            level.entries.as_mut_ptr(),
            level.entries.len(),
            level.corners.as_mut_ptr(),
            level.corners.len(),
            level.values.as_mut_ptr(),
            level.values.len(),
        )
    }
}

/// What a plan graph's node is worth at a state with some steps left, in ticks; or 3, 5, 6, 18.
pub fn worth(tables: &Tables, graph: &Graph, node: usize, state: usize, steps: usize) -> Worth {
    tested(version());
    unsafe {
        library::biidhaqun_worth(
            tables.states,
            tables.actions,
            tables.observations,
            tables.discount,
            tables.transition.as_ptr(),
            tables.transition.len(),
            tables.observation.as_ptr(),
            tables.observation.len(),
            tables.reward.as_ptr(),
            tables.reward.len(),
            graph.nodes,
            graph.actions.as_ptr(),
            graph.actions.len(),
            graph.next.as_ptr(),
            graph.next.len(),
            node,
            state,
            steps,
        )
    }
}

/// Makes the next level of a solver's alpha file and policy graph, with the builder's corners and so many points: its
/// actions, choices, masks, entries, corners and values are written, and the number of its vectors is answered; or 1, 7, 19,
/// 20, 8, 9, 10, 21, 11, 12. Its points are count, its weights the points: that is left to the caller to say in the level.
pub fn adopt(
    tables: &Tables,
    certifier: &Certifier,
    alpha: &[u8],
    graph: &[u8],
    points: &[u32],
    count: usize,
    level: &mut Level,
) -> Adopted {
    tested(version());
    unsafe {
        library::biidhaqun_adopt(
            tables.states,
            tables.actions,
            tables.observations,
            tables.discount,
            tables.transition.as_ptr(),
            tables.transition.len(),
            tables.observation.as_ptr(),
            tables.observation.len(),
            tables.reward.as_ptr(),
            tables.reward.len(),
            certifier.state.as_ptr(),
            certifier.state.len(),
            certifier.actions.as_ptr(),
            certifier.actions.len(),
            certifier.masks.as_ptr(),
            certifier.masks.len(),
            certifier.entries.as_ptr(),
            certifier.entries.len(),
            certifier.corners.as_ptr(),
            certifier.corners.len(),
            certifier.weights.as_ptr(),
            certifier.weights.len(),
            certifier.values.as_ptr(),
            certifier.values.len(),
            certifier.informed.as_ptr(),
            certifier.informed.len(),
            certifier.qmdp.as_ptr(),
            certifier.qmdp.len(),
            alpha.as_ptr(),
            alpha.len(),
            graph.as_ptr(),
            graph.len(),
            points.as_ptr(),
            points.len(),
            count,
            level.actions.as_mut_ptr(),
            level.actions.len(),
            level.choices.as_mut_ptr(),
            level.choices.len(),
            level.masks.as_mut_ptr(),
            level.masks.len(),
            level.entries.as_mut_ptr(),
            level.entries.len(),
            level.corners.as_mut_ptr(),
            level.corners.len(),
            level.values.as_mut_ptr(),
            level.values.len(),
        )
    }
}

/// Writes the list of the tables' transitions over the first words of a slice; or 3, 5, 6, 9.
pub fn list(tables: &Tables, list: &mut [u32]) -> Refusal {
    tested(version());
    unsafe {
        library::biidhaqun_list(
            tables.states,
            tables.actions,
            tables.observations,
            tables.discount,
            tables.transition.as_ptr(),
            tables.transition.len(),
            tables.observation.as_ptr(),
            tables.observation.len(),
            tables.reward.as_ptr(),
            tables.reward.len(),
            list.as_mut_ptr(),
            list.len(),
        )
    }
}

/// Moves a certifier to new tables, of which only the rewards differ: its entries, corners, values and rows are moved, and from
/// then on the new tables are handed in; or 7, the new tables' own 3, 5, 6, then 23.
pub fn reprice(tables: &Tables, new: &Tables, certifier: &mut Certifier) -> Refusal {
    tested(version());
    unsafe {
        library::biidhaqun_reprice(
            tables.states,
            tables.actions,
            tables.observations,
            tables.discount,
            tables.transition.as_ptr(),
            tables.transition.len(),
            tables.observation.as_ptr(),
            tables.observation.len(),
            tables.reward.as_ptr(),
            tables.reward.len(),
            new.states,
            new.actions,
            new.observations,
            new.discount,
            new.transition.as_ptr(),
            new.transition.len(),
            new.observation.as_ptr(),
            new.observation.len(),
            new.reward.as_ptr(),
            new.reward.len(),
            certifier.state.as_ptr(),
            certifier.state.len(),
            certifier.actions.as_ptr(),
            certifier.actions.len(),
            certifier.masks.as_ptr(),
            certifier.masks.len(),
            certifier.entries.as_mut_ptr(),
            certifier.entries.len(),
            certifier.corners.as_mut_ptr(),
            certifier.corners.len(),
            certifier.weights.as_ptr(),
            certifier.weights.len(),
            certifier.values.as_mut_ptr(),
            certifier.values.len(),
            certifier.informed.as_mut_ptr(),
            certifier.informed.len(),
            certifier.qmdp.as_mut_ptr(),
            certifier.qmdp.len(),
        )
    }
}

#[cfg(test)]
mod tests {
    use super::*;

    #[test]
    fn the_layout_of_this_crate() {
        tested(version());
    }

    #[test]
    #[should_panic(expected = "build both of one source")]
    fn another_layout() {
        tested(VERSION - 1);
    }
}
