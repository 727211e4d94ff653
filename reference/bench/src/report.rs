//! The tables.

/// One job's times, in nanoseconds.
pub struct Row {
    pub job: String,
    /// Where the bytes are, and what one time is of.
    pub state: String,
    pub archive: f64,
    pub rust: f64,
    /// The further Rust: reading ahead, or unrolled.
    pub further: Option<f64>,
    pub limit: Option<f64>,
    pub target: Option<f64>,
}

/// A point of a series: how a cost grows.
pub struct Point {
    pub check: String,
    pub archive: f64,
    pub rust: f64,
    /// The archive's time against the series' first point.
    pub growth: f64,
}

/// A ratio above its target by less than this is noise.
const NOISE: f64 = 1.1;

fn nanoseconds(time: f64) -> String {
    match time {
        time if time < 100.0 => format!("{time:.1}"),
        time => format!("{time:.0}"),
    }
}

fn optional(time: Option<f64>) -> String {
    time.map_or_else(|| "-".to_string(), nanoseconds)
}

pub fn start_rows() {
    println!("| job | bytes, unit | archive ns | Rust ns | ratio | target | reached | limit ns | further Rust ns |");
    println!("|---|---|---|---|---|---|---|---|---|");
}

pub fn row(row: &Row) {
    let ratio = row.archive / row.rust;
    let (target, reached) = match row.target {
        None => ("-".to_string(), "-"),
        Some(target) if ratio <= target => (format!("{target:.1}"), "yes"),
        Some(target) if ratio < target * NOISE => (format!("{target:.1}"), "within noise"),
        Some(target) => (format!("{target:.1}"), "no"),
    };
    println!(
        "| {} | {} | {} | {} | {ratio:.2} | {target} | {reached} | {} | {} |",
        row.job,
        row.state,
        nanoseconds(row.archive),
        nanoseconds(row.rust),
        optional(row.limit),
        optional(row.further),
    );
}

pub fn start_points() {
    println!();
    println!("| how it grows | archive ns | against the first | Rust ns | ratio |");
    println!("|---|---|---|---|---|");
}

pub fn point(point: &Point) {
    println!(
        "| {} | {} | {:.2} | {} | {:.2} |",
        point.check,
        nanoseconds(point.archive),
        point.growth,
        nanoseconds(point.rust),
        point.archive / point.rust,
    );
}
