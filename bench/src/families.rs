// Families of systems to measure.
use crate::system::{dot, value, Expr, Ranges, System, Valuation, MOST, PARAMETERS};
use reference::random::Random;

// Where systems are drawn: some parameters with wide ranges; the others are 0 and in no inequality.
pub struct Space {
    parameters: usize,
    ranges: Ranges,
    // The middle of the ranges.
    middle: Valuation,
    // From where on the numbers of a late solution lie; the last is the most.
    late: [i64; 1 + PARAMETERS],
    // How wide the ranges are in comparison: a factor for constants.
    scale: i64,
    // The width less one of the widest of other ranges.
    widest: i64,
    // Lists that make contrived systems; the third, which is about the last parameter alone, also stands behind others.
    contrived: [&'static [Expr]; 6],
}

// Four parameters: some 280,000 valuations.
pub const FOUR: Space = Space {
    parameters: 4,
    ranges: [(0, 22); PARAMETERS],
    middle: [11; PARAMETERS],
    late: [20, 18, 15, 12, 22],
    scale: 1,
    widest: 15,
    contrived: [
        // an even sum is odd
        &zero([-89, 2, 2, 2, 2]),
        // the same without the first parameter, so that each of its numbers is tried
        &zero([-67, 0, 2, 2, 2]),
        // the last parameter alone: each triple is tried for a number that is never there
        &zero([-23, 0, 0, 0, 2]),
        // each triple leaves half a number for the last
        &zero([-89, 4, 6, 8, 2]),
        // two planes that meet in no whole point
        &[[-33, 0, 1, 1, 1], [32, 0, -1, -1, 1], [32, 0, 1, -1, -1], [-33, 0, -1, 1, -1], [10, 0, 0, 0, -1]],
        // the last lies both above and below a middle that the others shift
        &[[-11, 1, -1, 1, 2], [10, -1, 1, -1, -2]],
    ],
};

// Three parameters: 262,144 valuations. The contrived systems are as those of four.
pub const THREE: Space = Space {
    parameters: 3,
    ranges: [(0, 63), (0, 63), (0, 63), (0, 0)],
    middle: [32, 32, 32, 0],
    late: [60, 50, 40, 0, 63],
    scale: 2,
    widest: 31,
    contrived: [
        &zero([-189, 2, 2, 2, 0]),
        &zero([-63, 0, 2, 2, 0]),
        &zero([-63, 0, 0, 2, 0]),
        &zero([-189, 4, 6, 2, 0]),
        &[[-95, 1, 1, 1, 0], [94, -1, -1, 1, 0], [94, 1, -1, -1, 0], [-95, -1, 1, -1, 0], [31, 0, 0, -1, 0]],
        &[[-33, 1, -1, 2, 0], [32, -1, 1, -2, 0]],
    ],
};

// Two inequalities that say that an expression is 0.
const fn zero(e: Expr) -> [Expr; 2] {
    [e, [-e[0], -e[1], -e[2], -e[3], -e[4]]]
}

// An expression of some coefficients that is 0 at a valuation.
fn zero_at(coefs: [i32; PARAMETERS], v: Valuation) -> Expr {
    let mut e = [-dot(&coefs, v) as i32; 1 + PARAMETERS];
    e[1..].copy_from_slice(&coefs);
    e
}

// All valuations of the ranges, in lexicographic order.
fn valuations(ranges: Ranges) -> Vec<Valuation> {
    let mut all = Vec::new();
    System { ranges, list: Vec::new() }.each(&mut |v| {
        all.push(v);
        false
    });
    all
}

// What is left of a list of valuations under one more inequality.
fn kept(left: &[Valuation], e: &Expr) -> usize {
    left.iter().filter(|&&v| value(e, v) >= 0).count()
}

// The inequalities of a system again and again, up to 25.
fn repeated(list: &[Expr]) -> Vec<Expr> {
    list.iter().copied().cycle().take(MOST).collect()
}

impl Space {
    // The system of a list over the whole ranges.
    fn system(&self, list: Vec<Expr>) -> System {
        System { ranges: self.ranges, list }
    }

    // The half-space with the point v put on its border; no coefficient is past `most`.
    fn through(&self, random: &mut Random, v: Valuation, most: i64) -> Expr {
        let mut coefs = [0; PARAMETERS];
        coefs[..self.parameters].fill_with(|| random.within(-most, most) as i32);
        zero_at(coefs, v)
    }

    // A random half-space through a point of some ranges.
    fn half_space(&self, random: &mut Random, ranges: Ranges, most: i64) -> Expr {
        let v = ranges.map(|(low, high)| random.within(low as i64, high as i64) as i16);
        self.through(random, v, most)
    }

    // Inequalities from `draw`, each of which cuts something off, until nothing is left: at least `least` of them, and at
    // most 25. All but the last cut gently; then one that ends it is looked for, and where none is found soon, one that
    // halves.
    fn until_nothing(&self, least: usize, mut draw: impl FnMut() -> Expr) -> System {
        loop {
            let mut left = valuations(self.ranges);
            let mut list = Vec::new();
            let mut tries = 0;
            while list.len() < MOST && !left.is_empty() && tries < 2000 {
                tries += 1;
                let e = draw();
                let k = kept(&left, &e);
                let gentle = k < left.len() && k * 4 >= left.len() * 3;
                let ending = k == 0 || (tries > 500 && k * 2 < left.len());
                let last = list.len() + 1 >= least;
                if (last && ending) || (!last && gentle) {
                    left.retain(|&v| value(&e, v) >= 0);
                    list.push(e);
                    tries = 0;
                }
            }
            if left.is_empty() {
                return self.system(list);
            }
        }
    }

    // Random half-spaces until nothing is left.
    fn without_solution(&self, random: &mut Random, least: usize, most: i64) -> System {
        self.until_nothing(least, || self.half_space(random, self.ranges, most))
    }

    // An expression and its opposite, -e - 1 ≥ 0, behind other inequalities that leave the middle.
    fn opposites(&self, random: &mut Random, inequalities: usize) -> System {
        let mut list = self.many_solutions(random, inequalities - 2).list;
        let e = self.through(random, self.middle, 9);
        let mut opposite = e.map(|x| -x);
        opposite[0] -= 1;
        list.extend([e, opposite]);
        self.system(list)
    }

    // Half-spaces that leave only valuations in the last part of the order.
    fn late_solution(&self, random: &mut Random, inequalities: usize) -> System {
        let [lows @ .., high] = self.late;
        let mut v = [0; PARAMETERS];
        for (x, low) in v.iter_mut().zip(lows).take(self.parameters) {
            *x = random.within(low, high) as i16;
        }
        let mut list = vec![zero_at([1, 0, 0, 0], v), zero_at([0, 1, 0, 0], v)];
        while list.len() < inequalities {
            let mut e = self.through(random, v, 9);
            e[0] += random.within(0, 20) as i32;
            list.push(e);
        }
        self.system(list)
    }

    // Half-spaces around the middle, far enough from it that many valuations are left.
    fn many_solutions(&self, random: &mut Random, inequalities: usize) -> System {
        let mut list = Vec::new();
        while list.len() < inequalities {
            let mut e = self.through(random, self.middle, 9);
            e[0] += random.within(50 * self.scale, 200 * self.scale) as i32;
            list.push(e);
        }
        self.system(list)
    }

    // Differences of two parameters and bounds of one, as clocks give them: coefficients are -1, 0 and 1.
    fn difference(&self, random: &mut Random) -> Expr {
        let mut e = [0; 1 + PARAMETERS];
        e[0] = random.within(-10 * self.scale, 10 * self.scale) as i32;
        let first = random.within(1, self.parameters as i64) as usize;
        let second = random.within(1, self.parameters as i64) as usize;
        e[first] += 1;
        e[second] -= 1;
        e
    }

    // Such differences until nothing is left.
    fn differences(&self, random: &mut Random, least: usize) -> System {
        self.until_nothing(least, || self.difference(random))
    }

    // Systems in which the best of the others says little, so that most branches are entered in vain.
    fn contrived(&self) -> Vec<System> {
        let mut all = Vec::new();
        for list in self.contrived {
            all.push(self.system(list.to_vec()));
            all.push(self.system(repeated(list)));
        }
        // harmless inequalities first, so that the one that decides comes last
        for (seed, most) in [(1, 1), (2, 9), (3, 1000)] {
            let random = &mut Random::new(seed);
            let mut list = Vec::new();
            while list.len() < MOST - 2 {
                let mut e = self.through(random, self.middle, most);
                e[0] += (50 * self.scale * most) as i32;
                list.push(e);
            }
            list.extend(self.contrived[2]);
            all.push(self.system(list));
        }
        all
    }

    // Small and large coefficients, as random as the other systems, over other ranges.
    fn other_ranges(&self, random: &mut Random) -> System {
        let mut ranges = [(0, 0); PARAMETERS];
        for range in &mut ranges[..self.parameters] {
            let low = random.within(-40, 40);
            let width = [0, 0, 1, 2, 7, self.widest][random.within(0, 5) as usize];
            *range = (low as i16, (low + width) as i16);
        }
        let count = random.within(0, 12);
        let mut list = Vec::new();
        for _ in 0..count {
            let most = [1, 9, 10_000][random.within(0, 2) as usize];
            list.push(self.half_space(random, ranges, most));
        }
        System { ranges, list }
    }

    // Edges: nothing to try, one valuation, the ends of the numbers.
    fn edges(&self) -> Vec<System> {
        let one = [(0, 0); PARAMETERS];
        let empty = [(0, 0), (1, 0), (0, 0), (0, 3)];
        let ends = [(i16::MIN, i16::MIN + 1), (i16::MAX - 1, i16::MAX), (0, 0), (-1, 1)];
        let wide = [i32::MIN, i32::MAX, i32::MAX, i32::MIN, i32::MIN];
        let mut all = Vec::new();
        for ranges in [one, empty, ends] {
            for list in [vec![], vec![[0; 5]], vec![[-1, 0, 0, 0, 0]], vec![wide; MOST], vec![[i32::MAX; 5], [i32::MIN; 5]]] {
                all.push(System { ranges, list });
            }
        }
        for s in &mut all {
            s.ranges[self.parameters..].fill((0, 0));
            s.list.iter_mut().for_each(|e| e[1 + self.parameters..].fill(0));
        }
        all
    }

    // The families that rest on the number of parameters, with n systems each where they are random.
    pub fn families(&self, n: usize) -> Vec<Family> {
        use Question::{Count, First};
        let random = &mut Random::new(2024);
        let sizes = |i: usize| 3 + i % (MOST - 2);
        let planes: Vec<System> = (0..n).map(|i| self.without_solution(random, sizes(i), 9)).collect();
        let steep: Vec<System> = (0..n).map(|i| self.without_solution(random, sizes(i), 1000)).collect();
        let clocks: Vec<System> = (0..n).map(|i| self.differences(random, 2 + i % 6)).collect();
        let padded: Vec<System> = planes.iter().map(|s| self.system(repeated(&s.list))).collect();
        let pairs: Vec<System> = (0..n).map(|i| self.opposites(random, sizes(i))).collect();
        let late: Vec<System> = (0..n).map(|i| self.late_solution(random, sizes(i))).collect();
        let many: Vec<System> = (0..n).map(|i| self.many_solutions(random, sizes(i))).collect();
        let others: Vec<System> = (0..n * 10).map(|_| self.other_ranges(random)).collect();
        vec![
            family("no solution, coefficients to 9", First, true, planes.clone()),
            family("no solution, coefficients to 1000", First, true, steep),
            family("no solution, differences", First, true, clocks),
            family("no solution, 25 by repetition", First, true, padded),
            family("no solution, e and its opposite", First, true, pairs),
            family("no solution, count", Count, true, planes),
            family("found late", First, false, late),
            family("many solutions, first", First, false, many.clone()),
            family("many solutions, count", Count, false, many),
            family("contrived, first", First, false, self.contrived()),
            family("contrived, count", Count, false, self.contrived()),
            family("other ranges, first", First, false, others.clone()),
            family("other ranges, count", Count, false, others),
            family("edges, first", First, false, self.edges()),
            family("edges, count", Count, false, self.edges()),
        ]
    }
}

// A system as Windows asks it: three parameters of 64 numbers, small coefficients, a valuation that meets all but the last
// inequality, and a last one that tests: a third of them is the opposite of an earlier one.
fn asked_by_windows(random: &mut Random, inequalities: usize) -> System {
    let v = [0; PARAMETERS].map(|_| random.within(5, 58) as i16);
    let mut list: Vec<Expr> = Vec::new();
    while list.len() + 1 < inequalities {
        let mut coefs = [0; PARAMETERS];
        coefs[..3].fill_with(|| [-2, -1, -1, 0, 0, 0, 1, 1, 2][random.within(0, 8) as usize]);
        let mut e = zero_at(coefs, v);
        e[0] += random.within(0, 60) as i32;
        list.push(e);
    }
    let mut last = list[random.within(0, list.len() as i64 - 1) as usize].map(|x| -x);
    last[0] += if random.within(0, 2) == 0 { -1 } else { random.within(-60, 60) as i32 };
    list.push(last);
    THREE.system(list)
}

pub enum Question {
    First,
    Count,
    // Whether there is one, with a guess.
    Some(Valuation),
}

pub struct Family {
    pub name: &'static str,
    pub question: Question,
    // Whether no system of the family has a solution and none is contrived: what the time limit is about.
    pub judged: bool,
    pub systems: Vec<System>,
}

fn family(name: &'static str, question: Question, judged: bool, systems: Vec<System>) -> Family {
    Family { name, question, judged, systems }
}

// All families for the scan, with n systems each where they are random: those of four parameters, and "as Windows asks".
pub fn all(n: usize) -> Vec<Family> {
    use Question::{First, Some};
    let random = &mut Random::new(2024);
    let windows: Vec<System> = (0..n).map(|i| asked_by_windows(random, 2 + i % 23)).collect();
    let mut all = FOUR.families(n);
    all.push(family("as Windows asks, first", First, false, windows.clone()));
    all.push(family("as Windows asks, some", Some([31, 31, 31, 0]), false, windows));
    all
}
