//! Curves of time over size: the exponent that fits, and a table.

/// The times of one operation, in seconds, by growing sizes.
pub struct Curve {
    pub name: &'static str,
    pub points: Vec<(usize, f64)>,
}

impl Curve {
    /// By least squares of the logarithms over the upper half: the e of time = c size^e.
    pub fn exponent(&self) -> f64 {
        let upper = &self.points[self.points.len() / 2..];
        let logs = upper.iter();
        let logs: Vec<(f64, f64)> = logs
            .map(|&(size, seconds)| ((size as f64).ln(), seconds.ln()))
            .collect();
        let count = logs.len() as f64;
        let mean = |part: fn(&(f64, f64)) -> f64| logs.iter().map(part).sum::<f64>() / count;
        let (x, y) = (mean(|log| log.0), mean(|log| log.1));
        let along: f64 = logs.iter().map(|log| (log.0 - x) * (log.1 - y)).sum();
        let square: f64 = logs.iter().map(|log| (log.0 - x).powi(2)).sum();
        along / square
    }
}

/// A point more for the curve of this name, which is begun where there is none.
pub fn add(curves: &mut Vec<Curve>, name: &'static str, point: (usize, f64)) {
    match curves.iter_mut().find(|curve| curve.name == name) {
        Some(curve) => curve.points.push(point),
        None => {
            let points = vec![point];
            curves.push(Curve { name, points });
        }
    }
}

/// Curves over sizes of one unit.
pub struct Chart {
    pub title: String,
    pub unit: &'static str,
    pub curves: Vec<Curve>,
}

impl Chart {
    /// As a table, a line for each curve. Curves with sizes of their own say them.
    pub fn print(&self) {
        let sizes = |curve: &Curve| curve.points.iter().map(|point| point.0).collect::<Vec<_>>();
        let first = sizes(&self.curves[0]);
        let same = self.curves.iter().all(|curve| sizes(curve) == first);
        println!("\n### By {}: {}\n", self.unit, self.title);
        match same {
            true => println!(
                "| | {} | exponent |",
                joined(&first, |size| size.to_string())
            ),
            false => println!("| |{} exponent |", " |".repeat(first.len())),
        }
        println!("|---|{}--:|", "--:|".repeat(first.len()));
        for curve in &self.curves {
            let times = joined(&curve.points, |&(size, seconds)| {
                let time = format!("{:.4}", 1_000.0 * seconds);
                if same {
                    time
                } else {
                    format!("{size}: {time}")
                }
            });
            println!("| {} | {times} | {:.2} |", curve.name, curve.exponent());
        }
    }
}

fn joined<T>(parts: &[T], shown: impl Fn(&T) -> String) -> String {
    parts.iter().map(shown).collect::<Vec<_>>().join(" | ")
}

#[cfg(test)]
mod tests {
    use super::Curve;

    /// The lower half, where a call's own cost counts, plays no part.
    #[test]
    fn exponent_of_the_upper_half() {
        let seconds = |size: usize| 3e-9 * (size as f64).powf(1.5);
        let points = [1, 2, 4, 8, 16, 32].map(|size| (size, seconds(size).max(seconds(8))));
        let curve = Curve {
            name: "",
            points: points.to_vec(),
        };
        assert!((curve.exponent() - 1.5).abs() < 1e-9);
    }
}
