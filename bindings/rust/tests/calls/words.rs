//! What is said in words, and the answers' own questions.

use bracket::{
    Combined, Computed, Error, Factored, Marked, Outcome, ParticleBlock, Refusal, Responded,
    SkylineCholesky, Stepped, Tally,
};

const ZERO: Outcome = Outcome::Zero { count: 0 };
const NEAR: Outcome = Outcome::Near {
    count: 0,
    residual_squared: 0.25,
};
const CONVERGED: Outcome = Outcome::Converged {
    count: 15,
    residual_squared: 1.5e-12,
};
const CURVATURE: Outcome = Outcome::Curvature {
    count: 2,
    residual_squared: 2.0,
    denominator: -1.0,
};
const LIMIT: Outcome = Outcome::Limit {
    count: 5,
    residual_squared: 16.0,
};
const FAILED: Factored = Factored::Failed {
    row: 3,
    pivot: -0.5,
};
const MARKED: Marked = Marked::Failed {
    row: 3,
    pivot: -0.5,
};

#[test]
fn an_outcome_tells_whether_it_is_solved() {
    let solved = [ZERO, NEAR, CONVERGED, CURVATURE, LIMIT].map(|outcome| {
        let stepped = Stepped::Iterated(outcome);
        assert_eq!(stepped.solved(), outcome.solved());
        assert_eq!(stepped.to_string(), outcome.to_string());
        let begins = outcome.to_string().starts_with("solved");
        assert_eq!(begins, outcome.solved());
        outcome.solved()
    });
    assert_eq!(solved, [true, true, true, false, false]);
    assert!(Stepped::Direct.solved());
}

#[test]
fn a_residual_is_named_as_squared() {
    assert_eq!(ZERO.residual_squared(), None);
    assert_eq!(NEAR.residual_squared(), Some(0.25));
    assert_eq!(CURVATURE.residual_squared(), Some(2.0));
}

#[test]
fn outcomes() {
    assert_eq!(
        ZERO.to_string(),
        "solved: b's squared length is 0, and x is zeros; iterations 0"
    );
    assert_eq!(
        NEAR.to_string(),
        "solved: the guess was within the tolerance; iterations 0, residual squared 2.5e-1"
    );
    assert_eq!(
        CONVERGED.to_string(),
        "solved: the residual came within the tolerance; iterations 15, residual squared 1.5e-12"
    );
    assert_eq!(
        CURVATURE.to_string(),
        "not solved: a denominator wasn't above zero, as happens if the matrix isn't positive definite; \
         iterations 2, residual squared 2e0, denominator -1e0"
    );
    assert_eq!(
        LIMIT.to_string(),
        "not solved: all iterations were made; iterations 5, residual squared 1.6e1"
    );
}

#[test]
fn steps() {
    assert_eq!(Stepped::Direct.to_string(), "solved: by the factor");
    assert_eq!(Marked::Direct.factored(), Some(Factored::Done));
    assert_eq!(MARKED.factored(), Some(FAILED));
    assert_eq!(Marked::Iterative.factored(), None);
    assert_eq!(
        Marked::Direct.to_string(),
        "factored; the step's solves are direct"
    );
    assert_eq!(
        MARKED.to_string(),
        "not factored: row 3 of the plan's order has the pivot -0.5, which isn't above zero; the step's solves iterate"
    );
    assert_eq!(
        Marked::Iterative.to_string(),
        "not factored, by the settings; the step's solves iterate"
    );
}

#[test]
fn factors() {
    assert!(Factored::Done.done() && !FAILED.done());
    assert_eq!(Factored::Done.to_string(), "factored");
    assert_eq!(
        FAILED.to_string(),
        "not factored: row 3 of the plan's order has the pivot -0.5, which isn't above zero"
    );
}

#[test]
fn responses() {
    let (gain, how) = (0.5, LIMIT);
    let direct = Responded::Direct { gain };
    let iterated = Responded::Iterated { gain, how };
    assert_eq!(Responded::Nothing.stepped(), None);
    assert_eq!(direct.stepped(), Some(Stepped::Direct));
    assert_eq!(iterated.stepped(), Some(Stepped::Iterated(LIMIT)));
    assert_eq!(
        Responded::Nothing.to_string(),
        "gain 0; nothing to solve: no entry is at a free particle"
    );
    assert_eq!(direct.to_string(), "gain 0.5; solved: by the factor");
    assert_eq!(iterated.to_string(), format!("gain 0.5; {LIMIT}"));
}

#[test]
fn columns() {
    let said = [
        ([0; 6], "nothing to solve: no particle is loaded"),
        (
            [8, 0, 0, 0, 0, 0],
            "solved: 8 columns; direct 8, zero 0, near 0, converged 0, curvature 0, limit 0",
        ),
        (
            [0, 1, 2, 3, 0, 0],
            "solved: 6 columns; direct 0, zero 1, near 2, converged 3, curvature 0, limit 0",
        ),
        (
            [1, 2, 3, 4, 5, 6],
            "not solved: 11 of 21 columns; direct 1, zero 2, near 3, converged 4, curvature 5, limit 6",
        ),
    ];
    for (ended, words) in said {
        let computed = Computed::from(ended);
        assert_eq!(computed.to_string(), words);
        assert_eq!(computed.solved(), !words.starts_with("not solved"));
        assert_eq!(computed.total(), ended.map(u64::from).iter().sum());
    }
    let full = Computed::from([u32::MAX; 6]);
    assert_eq!(full.total(), 3 * full.unsolved());
}

#[test]
fn combinations() {
    let said = [Combined::Gain(0.5), Combined::Nothing, Combined::NotLoaded];
    assert_eq!(
        said.map(|combined| combined.gain()),
        [Some(0.5), Some(0.0), None]
    );
    assert_eq!(
        said.map(|combined| combined.to_string()),
        [
            "gain 0.5; combined from the columns",
            "gain 0; nothing to combine: no entry is at a free particle",
            "not combined: a particle isn't loaded",
        ]
    );
    let block = [[2.0, -1.0], [-1.0, 1.5]];
    let said = [ParticleBlock::Block(block), ParticleBlock::NotLoaded];
    assert_eq!(said.map(|answer| answer.block()), [Some(block), None]);
    assert_eq!(
        said.map(|answer| answer.to_string()),
        [
            "block [[2.0, -1.0], [-1.0, 1.5]]",
            "no block: the particle isn't loaded"
        ]
    );
}

#[test]
fn tallies() {
    assert_eq!(
        Tally::from([1, 2, 3, 4, 5, 6, 7]).to_string(),
        "step solves 28: direct 1, zero 2, near 3, converged 4, curvature 5, limit 6, refused 7"
    );
}

const ERRORS: [Error; 11] = [
    Error::Refused(Refusal::BadSettings),
    Error::Length {
        list: "b",
        needed: 15,
        given: 14,
    },
    Error::Length {
        list: "preconditioner",
        needed: 15,
        given: 3,
    },
    Error::Length {
        list: "out of both columns",
        needed: 30,
        given: 15,
    },
    Error::NoPlan,
    Error::NotFactored,
    Error::FactorFailed {
        row: 3,
        pivot: -0.5,
    },
    Error::NoPreconditioner,
    Error::NoMatrix,
    Error::NotComputed,
    Error::NoBlock { row: 0, col: 2 },
];

#[test]
fn errors_say_what_to_do() {
    let said = ERRORS.map(|error| error.to_string());
    assert_eq!(
        said,
        [
            "refused by number 8: the tolerance isn't finite and at least zero, or more than 4,096 iterations; change the settings",
            "`b` is for 14 particles where 15 are needed; hand over one for exactly 15",
            "`preconditioner` is for 3 particles where 15 are needed; call update_preconditioner with this matrix",
            "`out` has 15 vectors where 30 are needed; hand over two vectors for each particle",
            "there is no plan; plan the matrix by SkylineCholesky::new, or factor the step's matrix by these settings",
            "there is no factor yet; call factorize",
            "not factored: row 3 of the plan's order has the pivot -0.5, which isn't above zero; factorize another matrix, or iterate",
            "there is no preconditioner yet; call update_preconditioner, or factor the step's matrix by these settings",
            "the step has no matrix; call factorize_step_matrix",
            "the loaded particles have no columns of the step's matrix; call compute_columns",
            "the pattern has no block (0, 2); name the pair to from_pairs",
        ]
    );
}

#[test]
fn every_refusal_says_what_to_do_after_its_own_words() {
    for refusal in Refusal::ALL {
        let error = Error::from(refusal);
        let own = format!("refused by number {}: {refusal}; ", refusal.number());
        let said = error.to_string();
        assert!(said.starts_with(&own) && said.len() > own.len(), "{said}");
        assert_eq!(error.number(), Some(refusal.number()));
    }
}

#[test]
fn an_error_of_the_wrapper_has_no_number() {
    assert_eq!(ERRORS.map(|error| error.number())[1..], [None; 10]);
    let failed: Result<(), Box<dyn std::error::Error>> = (|| {
        SkylineCholesky::default().solve(&[], &mut [])?;
        Ok(())
    })();
    assert_eq!(failed.unwrap_err().to_string(), Error::NoPlan.to_string());
}
