//! A tree of partial plans, best first: the node whose bound is least grows next.

use super::ascend::{Ascent, ascend};
use super::evaluate::{Entry, Point, Scene, Span, Work};
use super::fit::{alphas, whole_prices};
use super::model::{Model, ONE};
use super::yard::{Stay, Yard};
use crate::checker::Path;
use crate::nights::Choice;
use std::cmp::Reverse;
use std::collections::BinaryHeap;
use std::rc::Rc;

/// How the cases of a path are judged and lifted: by prices alone, or with stacks.
pub(crate) trait Rating {
    /// What is known of a path.
    type Place;

    fn place(&mut self, path: &Path, next: usize) -> Self::Place;

    /// The choices there that go through.
    fn choices(&self, place: &Self::Place) -> Vec<Choice>;

    /// The sums of cases there, where those of the parent's path with the last choice are these.
    fn sums(&mut self, place: &Self::Place, cases: &[Rc<Fixed>], handed: &[i64]) -> Vec<i64>;

    /// The sums of a case with each of the choices.
    fn steps(&mut self, place: &Self::Place, case: &Fixed, sum: i64) -> Vec<i64>;

    /// A case that is lifted so that each choice for which it is open bounds more than a level, if that can be.
    fn lifted(&mut self, place: &Self::Place, case: &Fixed, aim: Aim) -> (Rc<Fixed>, i64);
}

/// What a lift is for: the level and the cost of the best plan, whether there are more cases, and how deep the path is.
#[derive(Clone, Copy)]
pub(crate) struct Aim {
    pub(crate) level: i64,
    pub(crate) cost: i64,
    pub(crate) many: bool,
    pub(crate) depth: usize,
}

/// A case with whole numbers, 1024 to one, and its alphas.
pub(crate) struct Fixed {
    pub(crate) span: Span,
    pub(crate) point: Point,
    pub(crate) alpha: Vec<i64>,
}

/// A choice that isn't listed, with its bound and its sums by the cases.
#[derive(Clone)]
struct Open {
    bound: i64,
    choice: Choice,
    sums: Vec<i64>,
}

/// A partial plan, or a whole one.
pub(crate) struct Node {
    above: usize,
    depth: usize,
    pub(crate) choice: Option<Choice>,
    pub(crate) bound: i64,
    pub(crate) whole: bool,
    pub(crate) cases: Vec<Rc<Fixed>>,
    /// Whether the cases are its own and not inherited.
    pub(crate) own: bool,
    sums: Vec<i64>,
    key: i64,
    /// The least bound of its choices by the inherited cases.
    pub(crate) inherited: i64,
    choices: Option<Vec<Open>>,
    pub(crate) children: Vec<usize>,
    tried: i64,
    /// Its part of the work that is left at the level, 2^40 in all.
    share: i64,
}

/// A tree while it grows, with the best plan known.
pub(crate) struct Tree<'m, R> {
    model: &'m Model<'m>,
    rating: R,
    pub(crate) nodes: Vec<Node>,
    queue: BinaryHeap<(Reverse<i64>, usize, Reverse<usize>)>,
    pub(crate) cost: i64,
    pub(crate) plan: Vec<Choice>,
    level: Level,
}

/// The work at some bounds, the last of which it has: how many nodes it took, what share of it is done, and whether its nodes aren't lifted any more.
struct Level {
    bound: i64,
    nodes: i64,
    done: i64,
    given_up: bool,
}

const WHOLE_WORK: i64 = 1 << 40;

fn up(sum: i64) -> i64 {
    sum.div_euclid(1000) + i64::from(sum.rem_euclid(1000) > 0)
}

// The choices at a path that go through: by shape and track, with the ways.
pub(crate) fn entries(model: &Model, path: &Path, scene: &Scene, next: usize) -> Vec<(Entry, Choice)> {
    let yard = Yard::of(model.tables, &path.blocks);
    let mut entries = vec![];
    for row in &scene.rows[scene.starts[next]..scene.starts[next + 1]] {
        for park in crate::checker::options(model.tables) {
            let choice = Choice { shape: row.shape, park };
            if park.is_some_and(|park| model.groups[row.group].ways[park.track] >= super::model::NO_WAY) {
                continue;
            }
            let Some(cost) = model.tables.cost(choice) else { continue };
            if park.is_none_or(|park| yard.goes_through(park.track, &Stay::new(model.tables, row.shape, park))) {
                entries.push((Entry { row: *row, track: park.map(|park| park.track), cost: 1000 * ONE * cost as i64 }, choice));
            }
        }
    }
    entries
}

/// Paths rated by prices alone.
pub(crate) struct ByPrices<'m> {
    model: &'m Model<'m>,
    work: Work,
}

impl ByPrices<'_> {
    pub(crate) fn new<'m>(model: &'m Model<'m>) -> ByPrices<'m> {
        ByPrices { model, work: Work::new(model) }
    }
}

impl<'m> Rating for ByPrices<'m> {
    type Place = (Scene<'m>, Vec<(Entry, Choice)>);

    fn place(&mut self, path: &Path, next: usize) -> Self::Place {
        let scene = Scene::new(self.model, path);
        let found = entries(self.model, path, &scene, next);
        (scene, found)
    }

    fn choices(&self, place: &Self::Place) -> Vec<Choice> {
        place.1.iter().map(|found| found.1).collect()
    }

    fn sums(&mut self, _: &Self::Place, _: &[Rc<Fixed>], handed: &[i64]) -> Vec<i64> {
        handed.to_vec()
    }

    fn steps(&mut self, place: &Self::Place, case: &Fixed, sum: i64) -> Vec<i64> {
        let tracks = self.model.tables.night.tracks;
        self.work.weigh(self.model, &case.point);
        let step = |(entry, _): &(Entry, Choice)| {
            let (shape, group) = (entry.row.shape, entry.row.group);
            let option = match entry.track {
                None => case.point.multiplier,
                Some(track) => self.work.parked[group * tracks + track] - self.model.groups[group].ways[track],
            };
            let alphas: i64 = case.alpha[shape.u..shape.u + shape.n].iter().sum();
            sum + (entry.cost + option - self.work.betas(&entry.row)) / ONE - alphas
        };
        place.1.iter().map(step).collect()
    }

    fn lifted(&mut self, place: &Self::Place, case: &Fixed, aim: Aim) -> (Rc<Fixed>, i64) {
        let open = |entry: &Entry| place.0.unparked + i64::from(entry.track.is_none()) <= case.span.to;
        let entries = place.1.iter().map(|found| found.0).filter(open).collect();
        let scene = &Scene { entries, ..place.0.clone() };
        let grain = self.model.grain;
        let goal = 1000 * (aim.level + 4 * grain).min(aim.cost - 1) + 1;
        let most = if aim.depth < 2 { 240 } else { 60 };
        let ascent = Ascent { lengths: true, multiplier: aim.many, step: 6_000 * grain, most, goal: (goal + 3000 * grain) * ONE };
        let (point, _) = ascend(scene, case.span, ascent, &case.point, &mut self.work);
        let ascent = Ascent { step: 300 * grain, most: 20, goal: goal * ONE, ..ascent };
        let (point, _) = whole_prices(scene, case.span, ascent, &[5], &point, &mut self.work);
        let (fixed, sum) = alphas(scene, case.span, &point, &mut self.work);
        (Rc::new(fixed), sum)
    }
}

impl<'m, R: Rating> Tree<'m, R> {
    pub(crate) fn new(model: &'m Model<'m>, rating: R, cases: Vec<Rc<Fixed>>, sums: Vec<i64>, plan: Vec<Choice>, cost: i64) -> Tree<'m, R> {
        let key = sums.iter().map(|sum| up(*sum)).min().unwrap_or(0);
        let root = Node {
            above: 0,
            depth: 0,
            choice: None,
            bound: i64::MIN,
            whole: model.tables.units.is_empty(),
            cases,
            own: true,
            sums,
            key,
            inherited: i64::MIN,
            choices: None,
            children: vec![],
            tried: i64::MIN,
            share: 0,
        };
        let level = Level { bound: i64::MIN, nodes: 0, done: 0, given_up: false };
        let queue = BinaryHeap::from([(Reverse(key), 0, Reverse(0))]);
        Tree { model, rating, nodes: vec![root], queue, cost, plan, level }
    }

    fn path(&self, place: usize) -> Path {
        let mut choices = vec![];
        let mut at = place;
        while let Some(choice) = self.nodes[at].choice {
            choices.push(choice);
            at = self.nodes[at].above;
        }
        let mut path = Path::new(self.model.tables);
        choices.into_iter().rev().for_each(|choice| path.push(choice));
        path
    }

    // The choices with these cases that bound less than the best plan costs, the least first, and the least bound.
    fn opened(&mut self, path: &Path, place: &R::Place, cases: &[Rc<Fixed>], sums: &[i64]) -> (Vec<Open>, i64) {
        let found = self.rating.choices(place);
        let mut all: Vec<Vec<i64>> = vec![vec![]; found.len()];
        for (case, sum) in cases.iter().zip(sums) {
            let steps = self.rating.steps(place, case, *sum);
            all.iter_mut().zip(steps).for_each(|(all, step)| all.push(step));
        }
        let before = path.blocks.iter().filter(|block| block.park.is_none()).count() as i64;
        let mut choices = vec![];
        let mut least = self.cost;
        for (sums, choice) in all.into_iter().zip(found) {
            let unparked = before + i64::from(choice.park.is_none());
            let open = |k: usize| k + 1 == cases.len() || unparked <= cases[k].span.to;
            let bound = (0..cases.len()).filter(|k| open(*k)).map(|k| up(sums[k])).min().unwrap_or(i64::MAX);
            least = least.min(bound);
            if bound < self.cost {
                choices.push(Open { bound, choice, sums });
            }
        }
        choices.sort_by_key(|open| Reverse(open.bound));
        (choices, least)
    }

    fn put_back(&mut self, place: usize) {
        let node = &self.nodes[place];
        if node.key < self.cost {
            self.queue.push((Reverse(node.key), node.depth, Reverse(place)));
        }
    }

    // Finds the choices of a node by the cases that it inherits.
    fn open(&mut self, place: usize) {
        let path = self.path(place);
        let Some(next) = path.next() else { return };
        let there = self.rating.place(&path, next);
        let (cases, handed) = (self.nodes[place].cases.clone(), self.nodes[place].sums.clone());
        let sums = self.rating.sums(&there, &cases, &handed);
        let (choices, key) = self.opened(&path, &there, &cases, &sums);
        let node = &mut self.nodes[place];
        node.sums = sums;
        (node.choices, node.key, node.inherited) = (Some(choices), key.max(node.key), key.max(node.key));
    }

    // Looks for cases of a node that bound all its choices above the level, and takes them where its least bound rises.
    fn lift(&mut self, place: usize, level: i64) {
        self.nodes[place].tried = self.last_of(level);
        let path = self.path(place);
        let Some(next) = path.next() else { return };
        let there = self.rating.place(&path, next);
        let (mut cases, mut sums) = (self.nodes[place].cases.clone(), self.nodes[place].sums.clone());
        let before = path.blocks.iter().filter(|block| block.park.is_none()).count() as i64;
        let aim = Aim { level, cost: self.cost, many: cases.len() > 1, depth: path.blocks.len() };
        for k in 0..cases.len() {
            let is_open = k + 1 == cases.len() || before <= cases[k].span.to;
            if is_open && up(sums[k]) <= level + 4 * self.model.grain {
                (cases[k], sums[k]) = self.rating.lifted(&there, &cases[k].clone(), aim);
            }
        }
        let (choices, key) = self.opened(&path, &there, &cases, &sums);
        if key > self.nodes[place].key {
            let node = &mut self.nodes[place];
            (node.choices, node.key, node.cases, node.sums, node.own) = (Some(choices), key, cases, sums, true);
        }
    }

    // Lists the choices of a node that bound no more than the level, while there are nodes left.
    fn list(&mut self, place: usize, level: i64, most: usize) {
        let mut choices = self.nodes[place].choices.take().unwrap_or_default();
        let share = self.nodes[place].share / choices.iter().filter(|open| open.bound <= level).count().max(1) as i64;
        while self.nodes.len() < most && choices.last().is_some_and(|open| open.bound <= level) {
            let Some(open) = choices.pop() else { break };
            let node = Node {
                above: place,
                depth: self.nodes[place].depth + 1,
                choice: Some(open.choice),
                bound: open.bound,
                whole: false,
                cases: self.nodes[place].cases.clone(),
                own: false,
                sums: open.sums,
                key: open.bound,
                inherited: open.bound,
                choices: None,
                children: vec![],
                tried: i64::MIN,
                share,
            };
            self.level.nodes += 1;
            let child = self.nodes.len();
            self.nodes.push(node);
            self.nodes[place].children.push(child);
            self.arrive(child);
        }
        let node = &mut self.nodes[place];
        node.key = choices.last().map_or(i64::MAX, |open| open.bound);
        node.choices = Some(choices);
    }

    // A new node waits, or is a whole plan.
    fn arrive(&mut self, child: usize) {
        let path = self.path(child);
        if path.next().is_some() {
            return self.put_back(child);
        }
        let cost = path.blocks.iter().map(|block| self.model.tables.cost(*block).unwrap_or(0) as i64).sum();
        self.nodes[child].whole = true;
        self.level.done += self.nodes[child].share;
        if cost < self.cost {
            (self.cost, self.plan) = (cost, path.blocks);
        }
    }

    // The last of the bounds that are worked at together from one on.
    fn last_of(&self, key: i64) -> i64 {
        key + self.model.grain - 1
    }

    // Begins a new level with a node: those that wait at it share its work.
    fn begin_level(&mut self, key: i64, place: usize) {
        let last = self.last_of(key);
        self.level = Level { bound: last, nodes: 0, done: 0, given_up: false };
        let waiting = self.queue.iter().filter(|node| node.0.0 <= last).map(|node| node.2.0);
        let waiting: Vec<usize> = waiting.chain([place]).collect();
        let share = WHOLE_WORK / waiting.len() as i64;
        waiting.into_iter().for_each(|node| self.nodes[node].share = share);
    }

    // Whether a level is given up: by the share that is done it takes more nodes in all than it took and three times those that are left.
    fn gives_up(&self, left: usize) -> bool {
        let level = &self.level;
        let work = i128::from(level.nodes) * i128::from(WHOLE_WORK);
        level.given_up || level.nodes >= 300 && work > i128::from(level.done) * (i128::from(level.nodes) + 3 * left as i128)
    }

    // A node at the level is opened, lifted, or its choices are listed.
    fn step(&mut self, place: usize, key: i64, most: usize) {
        let node = &self.nodes[place];
        let is_new = node.choices.is_none();
        if is_new {
            self.open(place);
        } else if node.children.is_empty() && node.tried < key && !self.level.given_up {
            self.lift(place, key);
        } else {
            return self.list(place, key, most);
        }
        if self.nodes[place].key > key {
            self.level.done += self.nodes[place].share;
        }
    }

    /// Grows the tree to so many nodes, or until nothing is below the best plan. Answers the bound.
    pub(crate) fn grow(&mut self, most: usize) -> i64 {
        while let Some((Reverse(key), _, Reverse(place))) = self.queue.pop() {
            if key >= self.cost || self.nodes.len() >= most && self.nodes[place].choices.is_some() {
                return key.min(self.cost);
            }
            if key > self.level.bound {
                self.begin_level(key, place);
            }
            self.level.given_up = self.gives_up(most.saturating_sub(self.nodes.len()));
            self.step(place, key, most);
            self.put_back(place);
        }
        self.cost
    }
}
