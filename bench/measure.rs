//! Times several versions of one job in one process.
use std::fmt::Debug;

/// Calls the versions in turn, `repeats` times each, and prints the best and the median of each, and the first's divided by each of the others'.
/// `call` gives a version's time and its result; the results must be equal.
pub fn compare<V, R: Debug + PartialEq>(what: &str, unit: &str, repeats: usize, versions: &[(&str, V)], call: impl Fn(&V) -> (f64, R)) {
    let mut times = vec![Vec::new(); versions.len()];
    for _ in 0..repeats {
        let results: Vec<(f64, R)> = versions.iter().map(|(_, version)| call(version)).collect();
        for (k, (time, result)) in results.iter().enumerate() {
            assert_eq!(*result, results[0].1, "{} disagrees", versions[k].0);
            times[k].push(*time);
        }
    }
    times.iter_mut().for_each(|t| t.sort_by(f64::total_cmp));
    println!("{what}, {repeats} repeats of each, alternating");
    for (name, at) in [("best", 0), ("median", repeats / 2)] {
        print!("{name:7}");
        for (k, (version, _)) in versions.iter().enumerate() {
            print!(" {version} {:7.1} {unit}  ", times[k][at]);
        }
        println!(" ratio{}", times[1..].iter().map(|t| format!(" {:.3}", times[0][at] / t[at])).collect::<String>());
    }
}
