//! A planner: a plan of little cost, and a certificate of a good bound.

mod ascend;
mod cases;
mod climb;
mod draws;
mod evaluate;
mod filling;
mod fit;
mod gains;
mod guide;
mod model;
mod prices;
mod ruin;
mod stacked;
mod stacks;
mod tree;
mod writing;
mod yard;

use crate::checker::Path;
use crate::choices::read;
use crate::nights::{Choice, Tables};
use cases::{Found, cases_at_root};
use evaluate::{Scene, Work};
use fit::{alphas, case_of};
use guide::Guide;
use model::Model;
use prices::{EVERY, root_point};
use ruin::{COOL, Fall, HOT, MANY, MILD, Search, WARM, opening, polish};
use stacked::{ByStacks, cases_with_stacks};
use stacks::Stacks;
use std::rc::Rc;
use tree::{ByPrices, Fixed, Tree};

fn cost_of(tables: &Tables, plan: &[Choice]) -> i64 {
    plan.iter().map(|choice| tables.cost(*choice).unwrap_or(0) as i64).sum()
}

fn unparked_in(plan: &[Choice]) -> i64 {
    plan.iter().filter(|choice| choice.park.is_none()).count() as i64
}

// The cheapest of a plan and what a search that a case guides finds.
fn better(model: &Model, case: &Fixed, plan: Vec<Choice>, steps: i64, falls: &[Fall]) -> Vec<Choice> {
    let guide = Guide::new(model, &case_of(model, case));
    let mut other = Search::new(model, &guide, &plan).run(steps, falls);
    polish(model.tables, &mut other);
    if cost_of(model.tables, &other) < cost_of(model.tables, &plan) { other } else { plan }
}

// How often blocks are ruined before the cases of the root are parted.
fn first_rounds(units: usize) -> i64 {
    if units > 12 { 60_000 } else { 5_000 * units as i64 }
}

fn first_falls(units: usize) -> &'static [Fall] {
    if units > MANY { &[COOL] } else { &[HOT] }
}

// How often they are ruined once those are known.
fn last_rounds(units: usize) -> i64 {
    match units {
        101.. => 150_000,
        31.. => 300_000,
        _ => 10_000 * units as i64,
    }
}

// How often they are ruined once cases with stacks are known, which say who stands in whose way.
fn rounds_with_stacks(units: usize) -> i64 {
    if units > MANY { last_rounds(units) } else { 2 * last_rounds(units) }
}

fn last_falls(units: usize) -> &'static [Fall] {
    if units > MANY { &[COOL, COOL] } else { &[WARM, MILD] }
}

/// Up to so many nodes a certificate has version 1.
const FEW: usize = 16;

/// Which certificates are written: those with prices alone, or with stacks too where prices leave a gap.
#[derive(Clone, Copy, PartialEq, Eq)]
pub enum Version {
    First,
    Second,
}

/// Writes a plan and a certificate of at most so many nodes, and prints what they come to.
pub fn plan(version: Version, files: [&str; 2], nodes: &str, plan_file: &str, certificate_file: &str) {
    let tables = Tables::new(read(files[0], files[1]));
    let (slots, point, sum) = root_point(&tables);
    let model = Model::new(&tables, slots);
    let scene = Scene::new(&model, &Path::new(&tables));
    let mut work = Work::new(&model);
    let one = Found { span: EVERY, point, sum };
    let (fixed, _) = alphas(&scene, one.span, &one.point, &mut work);
    let mut opening = opening(&tables);
    polish(&tables, &mut opening);
    let units = tables.units.len();
    let plan = better(&model, &fixed, opening, first_rounds(units), first_falls(units));
    let found = cases_at_root(&scene, one, unparked_in(&plan), cost_of(&tables, &plan), &mut work);
    let fixed = |found: &Found| {
        let (fixed, sum) = alphas(&scene, found.span, &found.point, &mut Work::new(&model));
        (Rc::new(fixed), sum)
    };
    let (cases, sums): (Vec<_>, Vec<_>) = found.iter().map(fixed).unzip();
    let lowest = (0..cases.len()).min_by_key(|k| sums[*k]).unwrap_or(0);
    let plan = better(&model, &cases[lowest], plan, last_rounds(units), last_falls(units));
    let cost = cost_of(&tables, &plan);
    let most: usize = nodes.parse().expect("a number");
    let first = if version == Version::Second { most.min(FEW) } else { most };
    let mut tree = Tree::new(&model, ByPrices::new(&model), cases.clone(), sums.clone(), plan, cost);
    let bound = tree.grow(first);
    if bound == tree.cost || first == most {
        let (text, count) = writing::certificate_text(&model, &tree, bound, 1);
        return write(&tables, &tree.plan, [plan_file, certificate_file], &text, (tree.cost, bound, count));
    }
    let (slots, more, more_sums) = cases_with_stacks(&model, &cases, unparked_in(&tree.plan), tree.cost);
    let wide = Model::new(&tables, slots);
    let lowest = (0..more.len()).min_by_key(|k| more_sums[*k]).unwrap_or(0);
    let is_open = more_sums[lowest] <= 1_000 * (tree.cost - 1);
    let plan = if is_open {
        better(&wide, &more[lowest], tree.plan, rounds_with_stacks(units), last_falls(units))
    } else {
        tree.plan
    };
    let cost = cost_of(&tables, &plan);
    let stacks = Stacks::new(&wide);
    let mut other = Tree::new(&wide, ByStacks::new(&stacks), more, more_sums, plan, cost);
    let reached = other.grow(most);
    if reached >= bound {
        let (text, count) = writing::certificate_text(&wide, &other, reached, 2);
        return write(&tables, &other.plan, [plan_file, certificate_file], &text, (other.cost, reached, count));
    }
    // Prices alone bounded more with few nodes, and so they do with all.
    let mut tree = Tree::new(&model, ByPrices::new(&model), cases, sums, other.plan, other.cost);
    let bound = tree.grow(most);
    let (text, count) = writing::certificate_text(&model, &tree, bound, 1);
    write(&tables, &tree.plan, [plan_file, certificate_file], &text, (tree.cost, bound, count));
}

fn write(tables: &Tables, plan: &[Choice], files: [&str; 2], certificate: &str, (cost, bound, count): (i64, i64, usize)) {
    std::fs::write(files[0], writing::plan_text(tables, plan)).expect("a folder");
    std::fs::write(files[1], certificate).expect("a folder");
    let end = if bound == cost { "optimal" } else { "unfinished" };
    println!("{end} cost {cost} bound {bound} nodes {count}");
}
