//! Four screws on one bracket, with many constraints between them. Their columns are solved once and combined for each constraint, and
//! beside that each constraint is solved by itself. Prints how the solves ended and how many there were. Where the columns are no
//! solutions it warns, and combines nothing from them.

// No load hangs on it here.
#[allow(dead_code)]
mod springs;

use bracket::{Error, SoftFemParameters, Step, Tally, Vector};
use springs::Bracket;

const BRACKET: Bracket = Bracket {
    columns: 6,
    rows: 3,
    mass: 1.0,
    stiffness: 25.0,
};

/// Column and row of each screw.
const SCREWS: [(u32, u32); 4] = [(2, 0), (5, 0), (2, 2), (5, 2)];

const DIRECT: SoftFemParameters = SoftFemParameters {
    max_dense_dofs: 512,
    linear_tolerance: 1.0e-5,
    max_linear_iterations: 200,
};

const ITERATIVE: SoftFemParameters = SoftFemParameters {
    max_dense_dofs: 0,
    ..DIRECT
};

const CUT_SHORT: SoftFemParameters = SoftFemParameters {
    max_linear_iterations: 5,
    ..ITERATIVE
};

/// A constraint's gradient at each of its particles.
type Constraint = Vec<(u32, Vector)>;

fn screws() -> [u32; 4] {
    SCREWS.map(|(column, row)| BRACKET.particle(column, row))
}

/// Each screw held along four directions, each two held apart along both axes.
fn constraints() -> Vec<Constraint> {
    let directions = [[1.0, 0.0], [0.0, 1.0], [0.6, 0.8], [-0.8, 0.6]];
    let held = screws().map(|screw| directions.map(|along| vec![(screw, along)]));
    let mut all = held.as_flattened().to_vec();
    for (k, &b) in screws().iter().enumerate() {
        for &a in &screws()[..k] {
            all.push(vec![(a, [1.0, 0.0]), (b, [-1.0, 0.0])]);
            all.push(vec![(a, [0.0, 1.0]), (b, [0.0, -1.0])]);
        }
    }
    all
}

/// One step: the screws' columns, then every constraint by them and by a solve of its own.
fn hold(name: &str, params: &SoftFemParameters) -> Result<(), Error> {
    let mut step = Step::new(&BRACKET.pinned());
    let marked = step.factorize_step_matrix(&BRACKET.matrix()?, params)?;
    println!("{name}: {marked}");
    step.clear_columns()?;
    for screw in screws() {
        step.load_particle(screw)?;
    }
    let mut columns = Tally::default();
    let computed = step.compute_columns(params, &mut columns)?;
    println!("  {computed}");
    if !computed.solved() {
        let some = computed.unsolved();
        println!("  WARNING: {some} columns are no solutions, and nothing is combined from them");
        return Ok(());
    }
    let (mut alone, mut apart) = (Tally::default(), 0.0);
    for constraint in &constraints() {
        apart = both(&mut step, constraint, params, &mut alone)?.max(apart);
    }
    let (all, solves) = (constraints().len(), columns.total());
    println!(
        "  {all} constraints combined from {solves} solves, at most {apart:e} from a solve of each"
    );
    println!("  one by one, {alone}");
    Ok(())
}

/// How far the answer from columns is from that of a solve, in a particle's place or in the gain.
fn both(
    step: &mut Step,
    constraint: &[(u32, Vector)],
    params: &SoftFemParameters,
    tally: &mut Tally,
) -> Result<f32, Error> {
    let mut by_columns = vec![[0.0; 2]; BRACKET.particles()];
    let mut by_solve = by_columns.clone();
    let combined = step.response_from_columns(constraint, &mut by_columns)?;
    let responded = step.response_into(constraint, &mut by_solve, params, tally)?;
    let places = by_columns.as_flattened().iter();
    let apart = places
        .zip(by_solve.as_flattened())
        .map(|(a, b)| (a - b).abs())
        .fold(0.0, f32::max);
    // Every constraint is at screws, which are loaded.
    let gain = combined.gain().unwrap_or(f32::INFINITY);
    Ok(apart.max((gain - responded.gain()).abs()))
}

/// What a constraint at a particle without columns is answered: that it isn't loaded, and so it is solved.
fn hold_elsewhere() -> Result<(), Error> {
    let (mut step, mut tally) = (Step::new(&BRACKET.pinned()), Tally::default());
    let marked = step.factorize_step_matrix(&BRACKET.matrix()?, &DIRECT)?;
    println!("elsewhere: {marked}");
    let constraint = [(BRACKET.particle(4, 1), [0.0, -1.0])];
    let mut out = vec![[0.0; 2]; BRACKET.particles()];
    let combined = step.response_from_columns(&constraint, &mut out)?;
    println!("  {combined}");
    if combined.gain().is_none() {
        let responded = step.response_into(&constraint, &mut out, &DIRECT, &mut tally)?;
        println!("  {responded}");
    }
    Ok(())
}

fn main() -> Result<(), Error> {
    hold("direct", &DIRECT)?;
    hold("iterative", &ITERATIVE)?;
    hold("cut short", &CUT_SHORT)?;
    hold_elsewhere()
}
