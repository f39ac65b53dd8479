//! The exact chain: planes of whole numerators, each with one denominator for all of them.
use super::wide::Wide;
use super::{sample, Kernel, Stage, Work, OUTLINE};

pub struct Exact {
    pub numerators: Vec<Wide>,
    pub denominator: Wide,
}

pub fn start(plane: &[u8]) -> Exact {
    Exact {
        numerators: plane.iter().map(|x| Wide::from(*x as i64)).collect(),
        denominator: Wide::from(1),
    }
}

/// By what a stage multiplies the denominator.
fn factor(work: &Work) -> Vec<i64> {
    match work {
        Work::Weighted { across, down } => vec![across.divisor, down.divisor],
        Work::Box { r, s } => vec![(2 * r + 1) * (2 * s + 1)],
        Work::Rank { .. } | Work::Outline => vec![],
    }
}

/// The largest size among an outline's four sums of nine numerators, row by row.
fn outline(numerators: &[Wide]) -> Wide {
    let size = |kernel: &Kernel| {
        let pairs = numerators.iter().zip(kernel.as_flattened());
        let products = pairs.map(|(x, a)| x.times(*a));
        products.fold(Wide::ZERO, Wide::plus).magnitude()
    };
    OUTLINE.iter().map(size).fold(Wide::ZERO, Wide::max)
}

pub fn after(stage: &Stage, w: usize, h: usize, before: Exact) -> Exact {
    let border_value = before.denominator.times(stage.border_value as i64);
    let f = |u: i64, v: i64| sample(&before.numerators, w, h, stage.border, &border_value, u, v);
    let denominator = factor(&stage.work)
        .into_iter()
        .fold(before.denominator, Wide::times);
    let highest = denominator.times(255);
    let window = |r: i64, s: i64, u: i64, v: i64| -> Vec<Wide> {
        (-s..=s)
            .flat_map(|j| (-r..=r).map(move |i| (i, j)))
            .map(|(i, j)| f(u + i, v + j))
            .collect()
    };
    let result = |u: i64, v: i64| match &stage.work {
        Work::Weighted { across, down } => {
            let mut sum = Wide::ZERO;
            for t in &down.taps {
                for s in &across.taps {
                    sum = sum.plus(
                        f(u + s.offset, v + t.offset)
                            .times(s.numerator)
                            .times(t.numerator),
                    );
                }
            }
            sum.clamp(Wide::ZERO, highest)
        }
        Work::Box { r, s } => window(*r, *s, u, v)
            .into_iter()
            .fold(Wide::ZERO, Wide::plus),
        Work::Rank { r, s, p } => {
            let mut window = window(*r, *s, u, v);
            window.sort();
            window[*p as usize - 1]
        }
        Work::Outline => outline(&window(1, 1, u, v)).min(highest),
    };
    let places = (0..h as i64).flat_map(|v| (0..w as i64).map(move |u| (u, v)));
    let numerators = places.map(|(u, v)| result(u, v)).collect();
    Exact {
        numerators,
        denominator,
    }
}

pub fn chain(stages: &[Stage], w: usize, h: usize, plane: &[u8]) -> Exact {
    stages
        .iter()
        .fold(start(plane), |exact, stage| after(stage, w, h, exact))
}

impl Exact {
    /// The sum with another of the same denominator, place by place.
    pub fn plus(self, other: Exact) -> Exact {
        assert!(self.denominator == other.denominator);
        let pairs = self.numerators.into_iter().zip(other.numerators);
        Exact {
            numerators: pairs.map(|(x, y)| x.plus(y)).collect(),
            denominator: self.denominator,
        }
    }

    /// Each place divided by n.
    pub fn over(self, n: i64) -> Exact {
        Exact {
            denominator: self.denominator.times(n),
            ..self
        }
    }

    /// The same fractions over a denominator that is a multiple of that of these stages too.
    pub fn expanded(self, stages: &[Stage]) -> Exact {
        let factors = stages.iter().flat_map(|stage| factor(&stage.work));
        factors.fold(self, |exact, n| Exact {
            numerators: exact.numerators.iter().map(|x| x.times(n)).collect(),
            denominator: exact.denominator.times(n),
        })
    }
}

/// |x - x'| <= L, of two fractions over one denominator.
pub fn differ_by_at_most(limit: u64, first: &Exact, second: &Exact, place: usize) -> bool {
    assert!(first.denominator == second.denominator);
    let difference = first.numerators[place].minus(second.numerators[place]);
    difference.magnitude() <= first.denominator.times(limit as i64)
}

/// 65,536 |N y - x| <= T N.
pub fn within(tolerance: u64, exact: &Exact, place: usize, y: u8) -> bool {
    let n = exact.denominator;
    let distance = n.times(y as i64).minus(exact.numerators[place]).magnitude();
    distance.times(65536) <= n.times(tolerance as i64)
}
