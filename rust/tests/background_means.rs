//! The mean of a background and its tolerance: worked by hand, at halves, of long rasters, and beside exact stills.
mod reference;
mod support;

use hejslopi::Background;
use reference::background::Memory;
use reference::exact::{self, Exact};
use support::background::{self, grey, library_mean, owned_mean};
use support::{compare, inputs, Rng};

/// Worked by hand: 21/2 and 505/2 go up, 34/3 and 505/3 do not, and without the second still 23/2 and 250/2.
#[test]
fn means_worked_by_hand() {
    let mut kept = Background::new();
    let stills = [([10, 250], 100), ([11, 255], 300), ([13, 0], 200)];
    let means = [
        (32868, vec![10, 250]),
        (33068, vec![11, 253]),
        (33068, vec![11, 168]),
    ];
    for (k, ((samples, tolerance), mean)) in stills.iter().zip(means).enumerate() {
        kept.add(&grey(samples), k as u32, *tolerance).unwrap();
        assert_eq!(owned_mean(&kept), Some(mean));
    }
    kept.remove(1).unwrap();
    assert_eq!(owned_mean(&kept), Some((32968, vec![12, 125])));
}

/// The two sums of k samples around each half: the largest that goes down to level m, and the smallest that goes up to m + 1.
fn sums_at_halves(k: usize) -> Vec<usize> {
    let up = |m: usize| k * m + k.div_ceil(2);
    (0..255).flat_map(|m| [up(m) - 1, up(m)]).collect()
}

/// So many stills whose samples have these sums, place by place.
fn with_sums(k: usize, sums: &[usize]) -> Memory {
    let still = |i: usize| {
        sums.iter()
            .map(move |sum| (sum / k + usize::from(i < sum % k)) as u8)
    };
    Memory {
        rasters: (0..k).flat_map(still).collect(),
        labels: vec![0; 2 * k],
        held: [k as u64, sums.len() as u64, 1, 1],
    }
}

/// For any number of stills that may be held, and for more that a caller may claim.
#[test]
fn halves_go_up() {
    let levels: Vec<u8> = (0..255).flat_map(|m| [m, m + 1]).collect();
    for k in (1..=1000).chain([1001, 4096, 16384, 65535]) {
        let memory = with_sums(k, &sums_at_halves(k));
        let mean = library_mean(&memory);
        assert!(
            mean == Some((32768, levels.clone())),
            "{k} stills: {mean:?}"
        );
    }
}

/// Stills of many samples, whose mean is long, one row or several.
#[test]
fn large_stills_are_answered_alike() {
    let sizes = [
        [4095, 1],
        [4096, 1],
        [4097, 1],
        [64, 128],
        [8192, 3],
        [1, 8192],
        [96, 72],
    ];
    compare("background, large stills", 70, |rng, tally| {
        let [w, h] = rng.pick(&sizes);
        let channels = rng.pick(&[1, 3]);
        let (count, spare) = (rng.size(1, 5), rng.size(0, 9));
        let mut memory = Memory {
            rasters: vec![77; count * w * h * channels + spare],
            labels: vec![0; 2 * count],
            held: [0; 4],
        };
        for number in 0..count as u32 {
            let raster = inputs::samples(rng, w * h * channels);
            let (still, _) = inputs::still(rng, w, h, channels, 255, &raster);
            tally.add(background::add(rng, &mut memory, &still, number, 0)?);
            tally.add(background::mean(rng, &memory, w * h * channels + spare)?);
        }
        let number = rng.size(0, count - 1) as u32;
        tally.add(background::remove(rng, &mut memory, number)?);
        tally.add(background::mean(rng, &memory, w * h * channels)?);
        Ok(())
    });
}

/// So many stills filtered by a recipe and kept, beside the mean of the exact stills.
fn filtered_and_kept(rng: &mut Rng, recipe: &[u8], count: u32) -> (Background, Exact) {
    let stages = reference::read_recipe(recipe).unwrap();
    let (w, h) = inputs::size(rng, inputs::cost(&stages) * 200, 3_000_000);
    let mut kept = Background::new();
    let mut exact = Vec::new();
    for number in 0..count {
        let plane = inputs::samples(rng, w * h);
        let still = hejslopi::write_still(w, h, 1, &plane).unwrap();
        let file = hejslopi::filter_file(recipe, &still).unwrap();
        let tolerance = file.tolerance as u32;
        kept.add(&file.bytes, number, tolerance).unwrap();
        exact.push(reference::exact::chain(&stages, w, h, &plane));
    }
    let total = exact.into_iter().reduce(Exact::plus).unwrap();
    (kept, total.over(count as i64))
}

#[test]
fn means_lie_within_the_tolerance() {
    compare("means of filtered stills", 2_000, |rng, tally| {
        let stages = rng.size(1, 2);
        let recipe = inputs::recipe(rng, stages);
        if reference::read_recipe(&recipe).is_err() {
            return Ok(());
        }
        let count = rng.size(1, 9) as u32;
        let (kept, exact) = filtered_and_kept(rng, &recipe, count);
        let mean = kept.mean().unwrap().unwrap();
        tally.add(0);
        let within = |k: usize| exact::within(mean.tolerance, &exact, k, mean.raster[k]);
        match (0..mean.raster.len()).find(|&k| !within(k)) {
            None => Ok(()),
            Some(k) => Err(format!(
                "sample {k} is not within {}\n{count} stills by {}\n",
                mean.tolerance,
                support::hex(&recipe)
            )),
        }
    });
}
