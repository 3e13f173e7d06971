//! Measures the elementary functions of the comparison against the published crate `libm` and
//! against exact arithmetic, and prints the figures as a Markdown table.

mod exact;
#[allow(dead_code)]
#[path = "../../driver/src/inputs.rs"]
mod inputs;
#[allow(dead_code)]
#[path = "../../driver/src/random.rs"]
mod random;

use exact::{Constants, last_place};
use inputs::Shape;
use random::Random;

/// Points for the distance from `libm`.
const POINTS: u64 = 4_000_000;
/// Points for the true error, which is slow to work out.
const EXACT_POINTS: u64 = 200_000;
/// Answers of `sin` and `cos` below this size are next to a zero, that of the sine at 0 excepted.
const NEXT: f64 = 1.0 / 1_048_576.0;

/// The largest figure seen and the argument it was seen at.
#[derive(Clone, Copy, Default)]
struct Worst {
    figure: f64,
    at: f64,
}

impl Worst {
    fn see(&mut self, figure: f64, at: f64) {
        if figure > self.figure || figure.is_nan() {
            *self = Self { figure, at };
        }
    }

    fn shown(self, digits: usize) -> String {
        if self.figure == 0.0 {
            "0".to_string()
        } else {
            format!("{:.digits$} at {:?}", self.figure, self.at)
        }
    }

    fn size(self) -> String {
        if self.figure == 0.0 {
            "0".to_string()
        } else {
            format!("{:.2e} at {:?}", self.figure, self.at)
        }
    }
}

/// How many f64 lie between two answers; infinite if only one of them is NaN.
fn places(a: f64, b: f64) -> f64 {
    if a.is_nan() || b.is_nan() {
        return if a.is_nan() && b.is_nan() {
            0.0
        } else {
            f64::INFINITY
        };
    }
    let order = |x: f64| {
        let bits = x.to_bits() as i64;
        if bits < 0 {
            i128::from(i64::MIN) - i128::from(bits) - 1
        } else {
            i128::from(bits)
        }
    };
    (order(a) - order(b)).unsigned_abs() as f64
}

/// One row of the table.
struct Row {
    name: &'static str,
    range: &'static str,
    points: u64,
    places: Worst,
    size: Worst,
    exact_points: u64,
    error: Worst,
    error_size: Worst,
}

impl Row {
    fn new(name: &'static str, range: &'static str) -> Self {
        Self {
            name,
            range,
            points: 0,
            places: Worst::default(),
            size: Worst::default(),
            exact_points: 0,
            error: Worst::default(),
            error_size: Worst::default(),
        }
    }

    /// Notes the distance of the answer from that of `libm`.
    fn note(&mut self, x: f64, answer: f64, libm: f64) {
        self.points += 1;
        self.places.see(places(answer, libm), x);
        if answer.is_finite() && libm.is_finite() {
            self.size.see((answer - libm).abs(), x);
        }
    }

    fn print(&self) {
        let exact = if self.exact_points == 0 {
            ["-".to_string(), "-".to_string(), "-".to_string()]
        } else {
            [
                self.exact_points.to_string(),
                self.error.shown(3),
                if self.error_size.figure == 0.0 {
                    "-".to_string()
                } else {
                    self.error_size.size()
                },
            ]
        };
        println!(
            "| {} | {} | {} | {} | {} | {} |",
            self.name,
            self.range,
            self.points,
            self.places.shown(0),
            self.size.size(),
            exact.join(" | "),
        );
    }
}

type Function = fn(f64) -> f64;

/// `floor`, `ceil`, `fabs` and `sqrt` on inputs of every kind; the root also against exact squares.
fn exact_functions() {
    let functions: [(&str, Shape, Function, Function); 4] = [
        ("floor", Shape::Whole, standin::floor, published::floor),
        ("ceil", Shape::Whole, standin::ceil, published::ceil),
        ("fabs", Shape::Whole, standin::fabs, published::fabs),
        ("sqrt", Shape::Root, standin::sqrt, published::sqrt),
    ];
    for (name, shape, ours, libm) in functions {
        let mut row = Row::new(name, "every f64");
        let mut random = Random::new(1);
        for x in inputs::regular(shape) {
            row.note(x, ours(x), libm(x));
        }
        while row.points < POINTS {
            let x = inputs::draw(shape, &mut random);
            let answer = ours(x);
            row.note(x, answer, libm(x));
            if shape == Shape::Root && x > 0.0 && x < f64::INFINITY {
                let error = exact::root_error(x, answer);
                row.exact_points += 1;
                row.error.see(error, x);
            }
        }
        row.print();
    }
}

/// A random angle of a size up to `limit`, half of them spread evenly.
fn angle(random: &mut Random, limit: f64) -> f64 {
    let own = inputs::inside(Shape::Angle, random);
    if own.abs() <= limit && random.below(2) == 0 {
        own
    } else {
        random.uniform(-limit, limit)
    }
}

/// `sin` and `cos` in one range: away from the zeros, and next to them.
fn trigonometric(constants: &Constants, range: &'static str, limit: f64) {
    let functions: [(&str, bool, Function, Function); 2] = [
        ("sin", true, standin::sin, published::sin),
        ("cos", false, standin::cos, published::cos),
    ];
    for (name, is_sine, ours, libm) in functions {
        let mut random = Random::new(2);
        let mut away = Row::new(name, range);
        let mut next = Row::new(name, "beside these, next to a zero");
        let regular = inputs::regular(Shape::Angle);
        let mut regular = regular.into_iter().filter(|x| x.abs() <= limit);
        for i in 0..POINTS {
            let x = regular.next().unwrap_or_else(|| angle(&mut random, limit));
            let (answer, theirs) = (ours(x), libm(x));
            let is_next = theirs.abs() < NEXT && x.abs() > 1.0;
            let row = if is_next { &mut next } else { &mut away };
            row.note(x, answer, theirs);
            if i % (POINTS / EXACT_POINTS) == 0 && (x == 0.0 || x.abs() >= 1e-30) {
                let (sine, cosine) = exact::sine_cosine(constants, x);
                let truth = if is_sine { sine } else { cosine };
                let size = truth.error(answer);
                row.exact_points += 1;
                row.error_size.see(size, x);
                if theirs != 0.0 {
                    row.error.see(size / last_place(theirs), x);
                }
            }
        }
        away.print();
        next.print();
    }
}

/// `exp` over its range, and the 0 below it.
fn exponential(constants: &Constants) {
    let mut row = Row::new("exp", "-700 to 0");
    let mut random = Random::new(3);
    for x in inputs::regular(Shape::Exponent) {
        if (-700.0..=0.0).contains(&x) {
            row.note(x, standin::exp(x), published::exp(x));
        }
    }
    while row.points < POINTS {
        let x = inputs::inside(Shape::Exponent, &mut random);
        let answer = standin::exp(x);
        row.note(x, answer, published::exp(x));
        if row.exact_points < EXACT_POINTS && (x == 0.0 || x < -1e-30) {
            row.exact_points += 1;
            let error = exact::exponential_error(constants, x, answer);
            row.error.see(error, x);
            row.error_size.see(error * last_place(answer), x);
        }
    }
    row.print();
}

/// `pow04` where `kaiser_beta` can reach, and below down to where a hundred steps suffice.
fn power() {
    let reached = inputs::SMALLEST_POWER;
    let ranges = [
        ("3.6e-15 to 29", reached, 29.0),
        ("1e-21 to 3.6e-15", 1e-21, reached),
    ];
    for (range, low, high) in ranges {
        let mut row = Row::new("pow04", range);
        let mut random = Random::new(4);
        let ratio = f64::ln(high / low);
        while row.points < POINTS {
            let own = inputs::inside(Shape::Power, &mut random);
            let v = if (low..=high).contains(&own) {
                own
            } else {
                (low * f64::exp(random.unit() * ratio)).clamp(low, high)
            };
            let answer = standin::pow04(v);
            row.note(v, answer, published::pow(v, 0.4));
            if row.exact_points < EXACT_POINTS {
                row.exact_points += 1;
                let error = exact::two_fifths_error(v, answer);
                row.error.see(error, v);
                row.error_size.see(error * last_place(answer), v);
            }
        }
        row.print();
    }
}

fn main() {
    let constants = Constants::new();
    println!(
        "| function | range | points | from `libm` 0.2.1, ulp | from `libm`, absolute \
         | exact points | true error, ulp | true error, absolute |"
    );
    println!("|---|---|---|---|---|---|---|---|");
    exact_functions();
    trigonometric(&constants, "sizes up to 2 PI", 2.0 * std::f64::consts::PI);
    trigonometric(&constants, "sizes up to 2^25", 33_554_432.0);
    exponential(&constants);
    power();
    println!();
    println!(
        "Each figure is the largest seen, with its argument. An argument of sin or cos is next to \
         a zero if its size is above 1 and the answer's below 2^-20. The true value of pow04 is \
         v^(2/5); `libm` takes v to the f64 nearest 0.4, which for a small v is another number."
    );
}
