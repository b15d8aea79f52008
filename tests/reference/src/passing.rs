//! Milestones pass order on: a plan that has milestones and one that has direct arcs in their place are answered alike.

use crate::bench::Bench;
use crate::bytes::{Arc, Draft, Waits, EXTRA, JOB, MILESTONE};
use crate::cases::same;
use crate::crew::{anything, keeping_arcs};
use crate::model::{ordered, Case, Order, MOST_TRIED};
use crate::random::Random;
use crate::read::{read, Ends, Plan, MOST_ACTIVITIES};
use crate::sweep::{add_circle, around, random_draft};
use crate::tally::BROKEN;
use std::collections::BTreeMap;

/// The activities of the first plan have these numbers in the second, whose others are milestones.
struct Pair {
    first: Draft,
    second: Draft,
    numbers: Vec<usize>,
}

pub fn passing(bench: &mut Bench, count: usize) {
    for turn in 0..count {
        // Every tenth plan may have as many activities as a file can have, and is not held to the model.
        let most = if turn % 10 == 0 { MOST_ACTIVITIES } else { MOST_TRIED };
        for mut pair in [bent(&mut bench.random, most), left_out(&mut bench.random, most)] {
            let needs = bench.planner.needs(&pair.first.bytes(), &[0; 8]).after;
            let available = around(&mut bench.random, &needs[..pair.first.kinds as usize]);
            (pair.first.available, pair.second.available) = (available, available);
            alike(bench, &pair);
            crews_alike(bench, &pair);
            if pair.second.activities.len() <= MOST_TRIED {
                bench.all(&Case::new(pair.second.bytes()));
            }
        }
    }
}

/// A plan, and the same with a milestone of its own on some of its arcs, whose wait is then in part before the milestone
/// and in part after it. A circle stays a circle of its type, and its lowest activity the same: milestones have the highest
/// numbers.
fn bent(random: &mut Random, most: usize) -> Pair {
    let size = random.index(most / 2 + 1);
    let mut first = random_draft(random, size, 1_000);
    if random.percent(15) {
        add_circle(random, &mut first);
    }
    let mut second = Draft { job: vec![], extra: vec![], ..first.clone() };
    for (kind, (from, to)) in first.arcs() {
        let arcs = if kind == JOB { &mut second.job } else { &mut second.extra };
        if second.activities.len() == most || random.percent(60) {
            arcs.push((from, to));
            continue;
        }
        second.activities.push(MILESTONE);
        let milestone = second.activities.len() as u8;
        arcs.extend([(from, milestone), (milestone, to)]);
        let wait = second.waits.remove(&(kind, (from, to))).unwrap_or(0);
        let part = random.between(0, wait.into()) as u16;
        second.waits.extend([((kind, (from, milestone)), part), ((kind, (milestone, to)), wait - part)]);
    }
    Pair { first, second, numbers: (1..=size).collect() }
}

/// A plan with milestones, and before it the same without them: direct arcs wherever arcs lead from one of the other
/// activities to another, with the waits that there are on the way through milestones.
fn left_out(random: &mut Random, most: usize) -> Pair {
    let size = random.between(1, most as u64) as usize;
    let mut second = random_draft(random, size, 1_000);
    second.activities[random.index(size)] = MILESTONE;
    let plan = read(&second.bytes()).expect("a built plan is readable");
    let (_, order) = ordered(&plan).unwrap_or_else(|refusal| panic!("a built plan has a circle: {refusal:?}"));
    let numbers: Vec<usize> = (1..=size).filter(|&number| !plan.is_milestone(number - 1)).collect();
    between_others(&mut second, &order, &numbers);
    let ways = ways(&read(&second.bytes()).expect("it is readable with other waits"));
    let pairs = (0..numbers.len()).flat_map(|from| (0..numbers.len()).map(move |to| (from, to)));
    let direct = pairs.filter(|&(from, to)| order.is_before(numbers[from], numbers[to]));
    let (mut extra, mut waits): (Vec<Arc>, Waits) = Default::default();
    for (from, to) in direct {
        let arc = (from as u8 + 1, to as u8 + 1);
        // Where every way leads through another activity, the arcs to it and from it say more than this one.
        let way = ways.get(&(numbers[from], numbers[to])).copied().unwrap_or(0);
        waits.insert((EXTRA, arc), way.try_into().expect("ways are short"));
        extra.push(arc);
    }
    let activities = numbers.iter().map(|&number| second.activities[number - 1].clone()).collect();
    Pair { first: Draft { activities, job: vec![], extra, waits, ..second.clone() }, second, numbers }
}

/// Takes out the waits that no direct arc can stand for, since a milestone has none of these activities before it or none
/// after it. The rest is made so short that even the longest way is a wait of a file.
fn between_others(draft: &mut Draft, order: &Order, numbers: &[usize]) {
    let has_before = |from: usize| numbers.iter().any(|&other| other == from || order.is_before(other, from));
    let has_after = |to: usize| numbers.iter().any(|&other| other == to || order.is_before(to, other));
    draft.waits.retain(|&(_, (from, to)), wait| {
        *wait %= 1_000;
        has_before(from.into()) && has_after(to.into())
    });
}

/// The longest waits on the way from one activity to another, through milestones alone.
fn ways(plan: &Plan) -> BTreeMap<Ends, u64> {
    let mut ways = BTreeMap::new();
    let raise = |ways: &mut BTreeMap<Ends, u64>, ends, wait| {
        let way = ways.entry(ends).or_insert(wait);
        *way = wait.max(*way);
    };
    plan.bonds().for_each(|(ends, wait)| raise(&mut ways, ends, wait));
    for milestone in (1..=plan.size()).filter(|&number| plan.is_milestone(number - 1)) {
        let known = ways.clone();
        for (&(from, _), into) in known.iter().filter(|(ends, _)| ends.1 == milestone) {
            for (&(_, to), out) in known.iter().filter(|(ends, _)| ends.0 == milestone) {
                raise(&mut ways, (from, to), into + out);
            }
        }
    }
    ways
}

/// Verdicts but for the count of activities and the set, all needs, and the starts of the activities and the end.
fn alike(bench: &mut Bench, pair: &Pair) {
    let (one, two) = (pair.first.bytes(), pair.second.bytes());
    let told = |answer: u64| match answer & 255 {
        0 => answer >> 16,
        7 => answer & 0xFFFF_FFFF_FFFF,
        _ => answer,
    };
    let verdicts = [&one, &two].map(|file| told(bench.planner.verdict(file).answer));
    same(bench, &two, "Verdict past milestones", &verdicts[1..], &verdicts[..1]);
    let needs = [&one, &two].map(|file| bench.planner.needs(file, &[7; 8]));
    same(bench, &two, "Needs past milestones", &[needs[1].answer], &[needs[0].answer]);
    same(bench, &two, "Needs past milestones", &needs[1].after, &needs[0].after);
    let [due, starts] = [pair.first.activities.len(), pair.second.activities.len()].map(|size| vec![7; size + 1]);
    let (due, starts) = (bench.planner.starts(&one, &due).after, bench.planner.starts(&two, &starts).after);
    let end = starts.len();
    let got: Vec<u32> = pair.numbers.iter().chain([&end]).map(|&number| starts[number - 1]).collect();
    same(bench, &two, "Starts past milestones", &got, &due);
}

/// A crew of the first plan, with every milestone of the second as soon as all before it is done and waited for. An arc of
/// the one is then broken exactly where an arc of the other is, though not the same.
fn crews_alike(bench: &mut Bench, pair: &Pair) {
    let (one, two) = (pair.first.bytes(), pair.second.bytes());
    let [first, second] = [&one, &two].map(|file| read(file).expect("a built plan is readable"));
    if ordered(&second).is_err() {
        return;
    }
    let (starts, durations) = match bench.random.percent(60) {
        true => keeping_arcs(&mut bench.random, &first),
        false => anything(&mut bench.random, &first, &|random| random.below(6) as u32),
    };
    let (mut begun, mut worked) = (vec![0; second.size()], vec![0; second.size()]);
    for (place, &number) in pair.numbers.iter().enumerate() {
        (begun[number - 1], worked[number - 1]) = (starts[place], durations[place]);
    }
    let to_milestones: Vec<(Ends, u64)> = second.bonds().filter(|(ends, _)| !pair.numbers.contains(&ends.1)).collect();
    for ((from, to), wait) in to_milestones.repeat(second.size() - pair.numbers.len()) {
        begun[to - 1] = begun[to - 1].max(begun[from - 1] + worked[from - 1] + wait as u32);
    }
    let told = |answer: u64| if answer & 255 == BROKEN { BROKEN } else { answer };
    let due = told(bench.planner.crew_check(&one, &starts, &durations).answer);
    let got = told(bench.planner.crew_check(&two, &begun, &worked).answer);
    same(bench, &two, "Crew check past milestones", &[got], &[due]);
}
