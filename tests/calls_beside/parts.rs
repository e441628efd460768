//! Parts of a plan that are solved and fused, one by one and by workers.

use crate::lines::{Line, is_row};
use crate::stopped::Stopped;
use fb_crew::{Hands, OpenGate, Solved, Solver, Tools, decode_window, work_all};
use fb_fuse::{freed_count, fuse};
use fb_graph::{NoMemory, Row, Scope, Shot, Steps, components};
use fb_half::{Half, Standing, Work};
use fb_plan::{Job, Join, Plan};
use fb_resolve::resolve;
use fb_search::{search, search_all};
use fb_unit::solve_unit;
use std::alloc::Global;
use std::marker::Brand;
use std::sync::atomic::{AtomicU64, Ordering};
use std::sync::ledger::{Blank, Ledger};
use std::thread::Threads;

/// Between 1 and 3 either defect may grow. Of its own unit the defect at 5 knows the seam at 4 alone.
const WEIGHTS: [i128; 6] = [40, 2, 2, 40, 4, 10];

/// The part of unit 0, whose searches begin with the last defect.
fn solve_from_the_last<'a, L: Ledger>(
    alloc: Global,
    job: &'a Job<'a>,
    steps: &mut Steps<L>,
) -> Result<Half<'a>, NoMemory> {
    let mut work = Work::begin(alloc, job, 0, 0)?;
    let roots = Vec::from_slice(alloc, work.unmatched())?;
    for root in roots.iter().rev() {
        if matches!(work.matching().standing(*root), Standing::Unmatched(_)) {
            work = search(alloc, work, *root, steps)?;
        }
    }
    Ok(work.close())
}

/// The row of both units fused.
fn fuse_units<'a, L: Ledger>(
    alloc: Global,
    job: &'a Job<'a>,
    is_from_the_last: bool,
    blank: Blank,
) -> Result<Row, NoMemory> {
    let mut steps = Steps::<L>::new(blank);
    let left = if is_from_the_last {
        solve_from_the_last(alloc, job, &mut steps)?
    } else {
        solve_unit(alloc, job, 0, 0, &mut steps)?
    };
    let right = solve_unit(alloc, job, 0, 1, &mut steps)?;
    let whole = fuse(alloc, job, 2, left, right, &mut steps)?;
    Ok(resolve(alloc, &whole)?)
}

/// A fusion keeps the layers of the left part that it doesn't touch: those that grew from 1 and 3 at once, or those from 3.
pub fn keep_their_layers(alloc: Global) -> Result<(), Stopped> {
    let line = Line::new(alloc, &WEIGHTS, &[4])?;
    let mut shots = Vec::new(alloc);
    shots.push(line.shot(alloc, &[1, 3, 5])?)?;
    let job = Job::new(&line.graph, &line.plan, shots);
    let row = fuse_units::<Brand>(alloc, &job, false, Blank::new(1))?;
    let cuts = [
        (2, [1].as_slice()),
        (2, [3].as_slice()),
        (6, [4, 5].as_slice()),
        (4, [5].as_slice()),
    ];
    Stopped::unless(is_row(&row, &[1, 2, 5], 14, &cuts), "a row of units solved from all defects at once")?;
    let row = fuse_units::<Brand>(alloc, &job, true, Blank::new(1))?;
    let cuts = [
        (2, [2, 3].as_slice()),
        (2, [3].as_slice()),
        (6, [4, 5].as_slice()),
        (4, [5].as_slice()),
    ];
    Stopped::unless(is_row(&row, &[1, 2, 5], 14, &cuts), "a row of a unit solved from its last defect")
}

/// The row of the whole shot, by trees from all defects at once.
fn search_at_once<'a, L: Ledger>(alloc: Global, job: &'a Job<'a>, blank: Blank) -> Result<Row, NoMemory> {
    let mut steps = Steps::<L>::new(blank);
    let work = search_all(alloc, Work::begin(alloc, job, 0, 0)?, &mut steps)?;
    Ok(resolve(alloc, &work.close())?)
}

/// Trees from all defects grow at once: each of the two grows as far as the other one.
pub fn grow_at_once(alloc: Global) -> Result<(), Stopped> {
    let line = Line::new(alloc, &[20, 4, 4, 20], &[])?;
    let mut shots = Vec::new(alloc);
    shots.push(line.shot(alloc, &[1, 3])?)?;
    let job = Job::new(&line.graph, &line.plan, shots);
    let row = search_at_once::<Brand>(alloc, &job, Blank::new(1))?;
    let cuts = [(4, [1].as_slice()), (4, [3].as_slice())];
    Stopped::unless(is_row(&row, &[1, 2], 8, &cuts), "a row of trees that grow at once")
}

/// Whether the parts of both units, and of their fusion, list these defects.
fn list_defects<'a, L: Ledger>(
    alloc: Global,
    job: &'a Job<'a>,
    known: &[&[u32]; 3],
    blank: Blank,
) -> Result<bool, NoMemory> {
    let mut steps = Steps::<L>::new(blank);
    let begun = Work::begin(alloc, job, 0, 0)?;
    let left = solve_unit(alloc, job, 0, 0, &mut steps)?;
    let right = solve_unit(alloc, job, 0, 1, &mut steps)?;
    let are_units = begun.defects() == known[0] && left.defects() == known[0] && right.defects() == known[1];
    let whole = fuse(alloc, job, 2, left, right, &mut steps)?;
    Ok(are_units && whole.defects() == known[2])
}

/// The units of a plan, as ranges of vertices, and the range that their fusion owns.
type Ranges<'a> = ([&'a [(u64, u64)]; 2], &'a [(u64, u64)]);

/// Parts list their own defects, in rising order: the right part's vertices lie above the left's, below them, or between.
pub fn list_their_defects(alloc: Global) -> Result<(), Stopped> {
    let line = Line::new(alloc, &[2, 4, 2, 6, 2, 4, 8, 2, 4], &[4])?;
    let shot = [1, 3, 4, 6, 8];
    let plans: [(Ranges<'_>, [&[u32]; 3]); 4] = [
        (([&[(1, 4)], &[(5, 9)]], &[(4, 5)]), [&[1, 3], &[6, 8], &shot]),
        (([&[(5, 9)], &[(1, 4)]], &[(4, 5)]), [&[6, 8], &[1, 3], &shot]),
        (([&[(1, 2), (6, 7)], &[(3, 4), (8, 9)]], &[(2, 3), (4, 6), (7, 8)]), [&[1, 6], &[3, 8], &shot]),
        (([&[(2, 3)], &[(5, 6), (7, 9)]], &[(1, 2), (3, 5), (6, 7)]), [&[], &[8], &shot]),
    ];
    for ((units, seam), known) in &plans {
        let units = vec![in alloc; Vec::from_slice(alloc, units[0])?, Vec::from_slice(alloc, units[1])?]?;
        let fusion = Join {
            left: 0,
            right: 1,
            seam: Vec::from_slice(alloc, seam)?,
        };
        let plan = Plan::build(alloc, &line.graph, &units, &vec![in alloc; fusion]?)?;
        let mut shots = Vec::new(alloc);
        shots.push(line.shot(alloc, &shot)?)?;
        let job = Job::new(&line.graph, &plan, shots);
        Stopped::unless(list_defects::<Brand>(alloc, &job, known, Blank::new(1))?, "a part's defects")?;
    }
    Ok(())
}

/// The row of the defects at 1 and 3 with the seam at 2, or without a plan.
fn row_of_pair<R: Threads + Sync>(
    rt: &R,
    alloc: Global,
    line: &Line,
    plan: &Plan,
    workers: u32,
) -> Result<Vec<Row>, Stopped> {
    let mut parts = components(alloc, &line.graph)?;
    let mut shots: Vec<Shot> = Vec::new(alloc);
    shots.push(line.shot(alloc, &[1, 3])?)?;
    let window = decode_window(rt, alloc, &line.graph, plan, &mut parts, &shots, workers, &OpenGate)?;
    Ok(window.rows)
}

/// The root's row has the cuts of both units, each of which meets the seam; without a plan both defects grow as far.
pub fn give_the_root_their_cuts<R: Threads + Sync>(rt: &R, alloc: Global) -> Result<(), Stopped> {
    let line = Line::new(alloc, &[40, 2, 6, 40], &[2])?;
    for workers in 1..3 {
        let rows = row_of_pair(rt, alloc, &line, &line.plan, workers)?;
        let cuts = [(2, [1].as_slice()), (6, [3].as_slice())];
        Stopped::unless(rows.len() == 1 && is_row(&rows[0], &[1, 2], 8, &cuts), "the cuts of two units")?;
    }
    let rows = row_of_pair(rt, alloc, &line, &Plan::single(alloc, &line.graph)?, 1)?;
    let cuts = [(2, [1].as_slice()), (2, [1, 2].as_slice()), (4, [3].as_slice())];
    Stopped::unless(rows.len() == 1 && is_row(&rows[0], &[1, 2], 8, &cuts), "the cuts without a plan")
}

/// The hands of the product, which look at each item that they have solved.
#[derive(Drop)]
struct Looking<'a> {
    job: &'a Job<'a>,
    solver: Solver<'a>,
    /// Parts with all their defects matched, and of their own items.
    parts: AtomicU64,
    /// Items of roots without a part.
    rows: AtomicU64,
    others: AtomicU64,
}

impl<'a> Looking<'a> {
    fn new(job: &'a Job<'a>) -> Looking<'a> {
        Looking {
            job,
            solver: Solver::new(job),
            parts: AtomicU64::new(0),
            rows: AtomicU64::new(0),
            others: AtomicU64::new(0),
        }
    }

    fn look_at(&self, solved: &Solved<'a>, slot: u32, node: u32) {
        let count = match solved.part() {
            Some(half) => {
                if half.slot() == slot && half.node() == node && self.matches_all(half) {
                    &self.parts
                } else {
                    &self.others
                }
            }
            None => {
                if node == self.job.plan().root() {
                    &self.rows
                } else {
                    &self.others
                }
            }
        };
        count.fetch_add(1, Ordering::SeqCst);
    }

    /// Whether each defect of the shot is matched exactly where it is the part's own.
    fn matches_all(&self, half: &Half<'a>) -> bool {
        let scope = self.job.scope(half.slot(), half.node());
        for v in self.job.shots()[half.slot() as usize].as_slice() {
            if scope.is_real(*v) != is_matched(half, *v) {
                return false;
            }
        }
        half.matching().unmatched().is_empty()
    }
}

/// Whether the defect is in an outer node of the part that is matched.
fn is_matched(half: &Half<'_>, defect: u32) -> bool {
    let Some(outer) = half.regions().cover_of(defect) else {
        return false;
    };
    matches!(half.matching().standing(outer), Standing::Matched(_))
}

impl<'a> Hands<Solved<'a>, Tools> for Looking<'a> {
    ghost job = { λ h. h.job.now };

    fn unit(&self, alloc: Global, tools: &mut Tools, slot: u32, node: u32) -> Result<Solved<'a>, NoMemory> {
        let solved = self.solver.unit(alloc, tools, slot, node)?;
        self.look_at(&solved, slot, node);
        Ok(solved)
    }

    fn fusion(
        &self,
        alloc: Global,
        tools: &mut Tools,
        slot: u32,
        node: u32,
        left: Solved<'a>,
        right: Solved<'a>,
    ) -> Result<Solved<'a>, NoMemory> {
        let solved = self.solver.fusion(alloc, tools, slot, node, left, right)?;
        self.look_at(&solved, slot, node);
        Ok(solved)
    }
}

/// Each posted part has all its defects matched, and is of its own item: three units and the fusion of two of them, for each
/// of four shots, one of them without defects.
pub fn have_all_defects_matched<R: Threads + Sync>(rt: &R, alloc: Global) -> Result<(), Stopped> {
    let line = Line::new(alloc, &[2, 4, 2, 6, 2, 4, 8, 2, 4], &[3, 6])?;
    let mut shots = Vec::new(alloc);
    shots.push(line.shot(alloc, &[1, 2, 3, 4, 5, 6, 7, 8])?)?;
    shots.push(line.shot(alloc, &[])?)?;
    shots.push(line.shot(alloc, &[2, 5, 7])?)?;
    shots.push(line.shot(alloc, &[3, 6])?)?;
    let job = Job::new(&line.graph, &line.plan, shots);
    for workers in 1..4 {
        let hands = Looking::new(&job);
        let mut tools = Vec::new(alloc);
        for _ in 0..workers {
            tools.push(Tools::new(alloc))?;
        }
        let worked = work_all(rt, alloc, &job, workers, &hands, &OpenGate, tools)?;
        let seen = (
            hands.parts.load(Ordering::SeqCst),
            hands.rows.load(Ordering::SeqCst),
            hands.others.load(Ordering::SeqCst),
        );
        Stopped::unless(seen == (16, 4, 0), "what is posted")?;
        Stopped::unless(worked.made == 40, "how many events the workers count")?;
    }
    Ok(())
}

/// What each unit's part frees at the seam, and how many nodes are unmatched, how many matches there are and how many nodes,
/// once the two are put together.
fn merge_units<'a, L: Ledger>(alloc: Global, job: &'a Job<'a>, blank: Blank) -> Result<[usize; 5], NoMemory> {
    let mut steps = Steps::<L>::new(blank);
    let left = solve_unit(alloc, job, 0, 0, &mut steps)?;
    let right = solve_unit(alloc, job, 0, 1, &mut steps)?;
    let freed = [freed_count(&left, 2) as usize, freed_count(&right, 2) as usize];
    let work = Work::merge(alloc, job, 2, left, right)?;
    Ok([freed[0], freed[1], work.unmatched().len(), work.matches().len(), work.regions().len()])
}

/// Put together, the right unit's node, which was matched to the seam, and the seam's defect are unmatched, and the left
/// unit's match stays.
pub fn are_unmatched_at_the_seam(alloc: Global) -> Result<(), Stopped> {
    let line = Line::new(alloc, &[2, 4, 2, 6], &[2])?;
    let mut shots = Vec::new(alloc);
    shots.push(line.shot(alloc, &[1, 2, 3])?)?;
    let job = Job::new(&line.graph, &line.plan, shots);
    let counts = merge_units::<Brand>(alloc, &job, Blank::new(1))?;
    Stopped::unless(counts == [0, 1, 2, 1, 3], "a part as it is merged")
}
