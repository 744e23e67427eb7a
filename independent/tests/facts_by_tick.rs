//! The facts of many texts, found again by the checker's reader and by walking
//! through the windows of a plan tick by tick.

use independent::check::Set;
use independent::duality::Demand;
use independent::facts::facts_text;
use independent::family::Family;
use independent::text::plan_text;

/// The kind and the core that a job is on.
type Place = (usize, usize);

#[test]
fn the_same_tick_by_tick() {
    let mut seen = [0; 4];
    for (words, every) in [("named", 1), ("small", 7), ("gen 7 6000", 1)] {
        let words: Vec<&str> = words.split(' ').collect();
        let family = Family::parse(&words).unwrap();
        for index in family.indices().step_by(every) {
            let input = family.text(index);
            let set = Set::read(&input);
            if set.as_ref().is_some_and(|set| set.window > 1_000) {
                continue;
            }
            let expected = walked(set.as_ref(), &plan_text(&input), &mut seen);
            let found = String::from_utf8(facts_text(&input)).unwrap();
            assert_eq!(found, expected, "{family}, index {index}");
        }
    }
    let [outer, inner, no_room, refused] = seen;
    assert!(outer > 1_000 && inner > 1_000, "{seen:?}");
    assert!(no_room > 500 && refused > 500, "{seen:?}");
}

fn number(digits: &str) -> usize {
    usize::from_str_radix(digits, 16).unwrap()
}

/// The facts of a legal set, or of any other text, with the given plan or
/// refusal. Counts outer moves, inner ones, and refusals for room and others.
fn walked(set: Option<&Set>, plan: &[u8], seen: &mut [usize; 4]) -> String {
    let plan = std::str::from_utf8(plan).unwrap();
    let mut facts = set.map_or(String::new(), balance);
    if let Some(refusal) = plan.strip_prefix("1f") {
        seen[if set.is_some() { 2 } else { 3 }] += 1;
        let (number, place) = (number(&refusal[..2]), number(&refusal[2..4]));
        return facts + &format!("refused {number} {place}\n");
    }
    let set = set.expect("only a legal set has a plan");
    for job in 0..set.jobs.len() {
        let [outer, inner] = moves(&run_of(plan, job, set.window as usize));
        seen[0] += outer;
        seen[1] += inner;
        facts += &format!("moves {job} {outer} {inner}\n");
    }
    facts
}

fn balance(set: &Set) -> String {
    let mut left = [set.room(0) as i64, set.room(1) as i64];
    for job in &set.jobs {
        match *job {
            Demand::One(kind, cost) => left[kind] -= cost as i64,
            Demand::Both(first, second) if second < first => left[1] -= second as i64,
            Demand::Both(first, _) => left[0] -= first as i64,
        }
    }
    format!("balance {} {}\n", left[0], left[1])
}

/// Where a job runs at each tick of the window.
fn run_of(plan: &str, job: usize, window: usize) -> Vec<Option<Place>> {
    let mut run = vec![None; window];
    for line in plan.lines().filter(|line| line.starts_with("12")) {
        if number(&line[2..4]) == job {
            let (start, length) = (number(&line[8..12]), number(&line[12..16]));
            let place = (number(&line[4..6]), number(&line[6..8]));
            run[start..start + length].fill(Some(place));
        }
    }
    run
}

/// The outer and the inner moves that the next window adds to a run.
fn moves(run: &[Option<Place>]) -> [usize; 2] {
    let [once, twice] = [1, 2].map(|windows| changes(&run.repeat(windows)));
    [twice[0] - once[0], twice[1] - once[1]]
}

/// How often a run changes its kind, and how often its core alone.
fn changes(run: &[Option<Place>]) -> [usize; 2] {
    let mut places: Vec<Place> = run.iter().flatten().copied().collect();
    places.dedup();
    let outer = |two: &&[Place]| two[0].0 != two[1].0;
    let outer = places.windows(2).filter(outer).count();
    [outer, places.len().saturating_sub(1) - outer]
}
