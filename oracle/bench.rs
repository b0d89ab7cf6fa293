//! Times the library through its C interface and the straight look-up here, by one clock and in turns, with memory cleared before the clock
//! starts. Closing alone is not in the C interface: these are verdicts whose search ends at the first pair, or models that are cut. Then
//! the opposites of two models near the limits, with one place too few for arrows, which is closing and counting, and with enough.

use crate::asked::{opposite, verdict};
use crate::driver::{ask, Question};
use crate::facts::{Facts, FLAGS};
use crate::model::{bit, Model};
use crate::models::{at_the_limit, large, near_the_limits, plain};
use crate::opposite::LIMIT;
use crate::random::Random;
use crate::rooms::Room;
use crate::straight::Lent;
use crate::tables::{MOST_PROFILES, MOST_SETS};
use std::time::Instant;

const SEED: u64 = 13;
const TURNS: usize = 5;
/// So often is each timed in a turn.
const TIMES: usize = 3;
/// States and events of the models that are looked for.
const SIZES: [(usize, usize); 5] = [(4, 3), (5, 4), (6, 6), (8, 9), (5, 16)];

/// `runner` is the command that runs the driver.
pub fn run(runner: &[&str]) -> i32 {
    match timed(runner) {
        Ok(()) => 0,
        Err(fault) => {
            eprintln!("oracle: {}", fault);
            1
        }
    }
}

fn timed(runner: &[&str]) -> Result<(), String> {
    let random = &mut Random::new(SEED);
    let mut models: Vec<Model> = SIZES.map(|(n, k)| found(random, n, k)).into();
    models.extend(
        large()
            .into_iter()
            .filter(|model| Lent::cleared().close(model).2),
    );
    for model in models {
        compare(&model, runner)?;
    }
    let [at_the_limit, _] = at_the_limit();
    for model in [near_the_limits(), at_the_limit] {
        oppose(&model, runner)?;
    }
    Ok(())
}

/// A random model with more than 1,000 profiles, all within the limit, whose first pair rejects: event 0 leads every state to itself, and the
/// start state is not home.
fn found(random: &mut Random, n: usize, k: usize) -> Model {
    loop {
        let mut model = random.model_of(n, k);
        model.start = 1;
        model.home &= !1;
        model.arrows[0] = (0..n).fold(0, |all, p| all | bit(p, p));
        let (_, profiles, cut) = Lent::cleared().close(&model);
        if !cut && profiles > 1_000 {
            return model;
        }
    }
}

fn compare(model: &Model, runner: &[&str]) -> Result<(), String> {
    let given = plain(model.clone());
    let facts = Facts::of(&given);
    let (sets, profiles, cut) = Lent::cleared().close(model);
    if (sets, profiles, cut) != (facts.sets(), facts.profiles(), facts.is_cut()) {
        return Err(format!("the straight look-up has {} profiles", profiles));
    }
    let lengths = [vec![MOST_SETS; 3], vec![MOST_PROFILES; 4], vec![2_304]].concat();
    let question = verdict(&given, &facts, &Room { lengths, seed: 0 });
    if !cut && question.expected.fields[4..] != [0, 1] {
        return Err("the first pair does not reject".to_string());
    }
    let (library, here) = in_turns(runner, question, || straight(model, profiles))?;
    println!(
        "n {} k {}: {} sets, {} profiles{}: library {:.2} ms, straight look-up in Rust {:.2} ms, ratio {:.2}",
        model.n,
        model.k,
        sets,
        profiles,
        if cut { ", cut" } else { "" },
        library,
        here,
        library / here,
    );
    Ok(())
}

fn oppose(model: &Model, runner: &[&str]) -> Result<(), String> {
    let given = plain(model.clone());
    let facts = Facts::with_opposite(&given);
    let size = facts.size().filter(|size| size.is_within_limits());
    let size = size.ok_or("the opposite is above the limits")?;
    let room = |arrows: usize| {
        let mut lengths = [vec![MOST_SETS; 3], vec![MOST_PROFILES; 4], vec![LIMIT; 4]].concat();
        lengths[FLAGS - 1] = arrows;
        Room { lengths, seed: 0 }
    };
    let counted = opposite(&given, &facts, &room(size.arrows - 1));
    let written = opposite(&given, &facts, &room(size.arrows));
    let mut took = [Vec::new(), Vec::new()];
    let questions = [often(counted), often(written)];
    for _ in 0..TURNS {
        for (question, took) in questions.iter().zip(&mut took) {
            took.extend(once(runner, question)?);
        }
    }
    let [counted, written] = took.map(median);
    println!(
        "n {} k {}: {} sets, {} profiles, opposite with {} states and {} arrows: closing and counting {:.2} ms, all {:.2} ms, so writing {:.2} ms",
        model.n,
        model.k,
        facts.sets(),
        facts.profiles(),
        size.states,
        size.arrows,
        counted,
        written,
        written - counted,
    );
    Ok(())
}

fn often(mut question: Question) -> Question {
    question.case.times = TIMES;
    question
}

/// The milliseconds of each call in one process; what comes back must be right.
fn once(runner: &[&str], question: &Question) -> Result<Vec<f64>, String> {
    let told = ask(runner, std::slice::from_ref(question))?;
    let took = told.into_iter().flat_map(|told| told.took);
    Ok(took.map(|nanoseconds| nanoseconds as f64 / 1e6).collect())
}

fn in_turns(
    runner: &[&str],
    question: Question,
    other: impl Fn() -> f64,
) -> Result<(f64, f64), String> {
    let question = often(question);
    let (mut library, mut here) = (Vec::new(), Vec::new());
    for _ in 0..TURNS {
        library.extend(once(runner, &question)?);
        here.extend((0..TIMES).map(|_| other()));
    }
    Ok((median(library), median(here)))
}

fn median(mut took: Vec<f64>) -> f64 {
    took.sort_by(f64::total_cmp);
    took[took.len() / 2]
}

/// The memory is cleared before the clock starts. What is found is asked for, so that no compiler leaves it out.
fn straight(model: &Model, profiles: usize) -> f64 {
    let mut lent = Lent::cleared();
    let began = Instant::now();
    let (_, found, _) = lent.close(model);
    let took = began.elapsed();
    assert_eq!(found, profiles);
    took.as_secs_f64() * 1e3
}
