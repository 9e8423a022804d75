//! Solves a sprung bracket by both routes and prints in words how each matrix was factored and each solve ended, what stood against
//! those that failed, and in the end the tally.

mod springs;

use bracket::{Error, SoftFemParameters, Step, Tally, Vector};
use springs::Bracket;

const BRACKET: Bracket = Bracket {
    columns: 6,
    rows: 3,
    mass: 1.0,
    stiffness: 25.0,
};

/// The settings of the direct route, which holds all of the bracket.
const DIRECT: SoftFemParameters = SoftFemParameters {
    max_dense_dofs: 512,
    linear_tolerance: 1.0e-5,
    max_linear_iterations: 200,
};

const ITERATIVE: SoftFemParameters = SoftFemParameters {
    max_dense_dofs: 0,
    ..DIRECT
};

const CUT_SHORT: SoftFemParameters = SoftFemParameters {
    max_linear_iterations: 5,
    ..ITERATIVE
};

const IMPOSSIBLE: SoftFemParameters = SoftFemParameters {
    linear_tolerance: f32::NAN,
    ..ITERATIVE
};

/// One step: the matrix is factored by these settings, and the load solved.
fn solve(
    name: &str,
    params: &SoftFemParameters,
    load: &[Vector],
    tally: &mut Tally,
) -> Result<(), Error> {
    let mut step = Step::new(&BRACKET.pinned());
    let marked = step.factorize_step_matrix(&BRACKET.matrix()?, params)?;
    let mut x = vec![[0.0; 2]; BRACKET.particles()];
    println!("{name}: {marked}");
    match step.solve_step(load, &mut x, params, tally) {
        Ok(stepped) => {
            println!("  {stepped}; b - A x squared {:e}", apart(&x, load)?);
            let corner = BRACKET.particle(BRACKET.columns - 1, 0) as usize;
            let told = if stepped.solved() {
                "moves by"
            } else {
                "is left, unsolved, at"
            };
            println!("  outer corner {told} {:?}", x[corner]);
        }
        Err(error) => println!("  {error}"),
    }
    Ok(())
}

/// The squared length of b - A x, worked out afresh.
fn apart(x: &[Vector], b: &[Vector]) -> Result<f32, Error> {
    let mut product = vec![[0.0; 2]; x.len()];
    BRACKET.matrix()?.mul(x, &mut product)?;
    let lacks = product
        .iter()
        .zip(b)
        .map(|(p, b)| [b[0] - p[0], b[1] - p[1]]);
    Ok(lacks
        .map(|r| r[0] * r[0] + r[1] * r[1])
        .fold(0.0, |sum, part| sum + part))
}

/// What a constraint that pulls the outer corner down is answered.
fn respond(tally: &mut Tally) -> Result<(), Error> {
    let mut step = Step::new(&BRACKET.pinned());
    let marked = step.factorize_step_matrix(&BRACKET.matrix()?, &DIRECT)?;
    println!("responses: {marked}");
    let mut out = vec![[0.0; 2]; BRACKET.particles()];
    let corner = BRACKET.particle(BRACKET.columns - 1, 0);
    for (name, particle) in [("outer corner", corner), ("wall", BRACKET.particle(0, 0))] {
        let responded = step.response_into(&[(particle, [0.0, -1.0])], &mut out, &DIRECT, tally)?;
        println!("  at the {name}: {responded}");
    }
    Ok(())
}

fn main() -> Result<(), Error> {
    let mut tally = Tally::default();
    let load = BRACKET.load(2.0);
    solve("direct", &DIRECT, &load, &mut tally)?;
    solve("iterative", &ITERATIVE, &load, &mut tally)?;
    solve("cut short", &CUT_SHORT, &load, &mut tally)?;
    solve("no load", &ITERATIVE, &BRACKET.load(0.0), &mut tally)?;
    solve("impossible tolerance", &IMPOSSIBLE, &load, &mut tally)?;
    solve("load of too few particles", &DIRECT, &load[1..], &mut tally)?;
    respond(&mut tally)?;
    println!("{tally}");
    Ok(())
}
