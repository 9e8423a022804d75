//! That no answer can be dropped unseen: each call compiles where its answer is taken, and where it's dropped the compiler objects.

macro_rules! before {
    () => {
        "#![deny(unused_must_use)]
        use bracket::*;
        let mut matrix = BlockMatrix::from_pairs(1, &[]).unwrap();
        matrix.blocks_mut()[0] = IDENTITY;
        let (b, mut x) = ([[1.0, 0.0]], [[0.0; 2]]);
        let mut direct = SkylineCholesky::new(&matrix).unwrap();
        let mut cg = ConjugateGradient::default();
        cg.update_preconditioner(&matrix).unwrap();
        let params = SoftFemParameters { max_dense_dofs: 2, linear_tolerance: 0.0, max_linear_iterations: 1 };
        let (mut step, mut tally) = (Step::new(&[false]), Tally::default());
        assert!(step.factorize_step_matrix(&matrix, &params).is_ok());
        "
    };
}

macro_rules! dropped {
    ($($name:ident: $call:literal;)*) => { $(
        #[doc = concat!("```\n", before!(), "let _ = ", $call, ";\n```")]
        #[doc = concat!("```compile_fail\n", before!(), $call, ";\n```")]
        mod $name {}
    )* };
}

dropped! {
    outcome: "cg.solve(&matrix, &b, &mut x, 0.0, 1).unwrap()";
    factored: "direct.factorize(&matrix).unwrap()";
    marked: "step.factorize_step_matrix(&matrix, &params).unwrap()";
    stepped: "step.solve_step(&b, &mut x, &params, &mut tally).unwrap()";
    responded: "step.response_into(&[(0, [1.0, 0.0])], &mut x, &params, &mut tally).unwrap()";
    loaded: "step.load_particle(0)";
    cleared: "step.clear_columns()";
    computed: "step.compute_columns(&params, &mut tally).unwrap()";
    combined: "step.response_from_columns(&[(0, [1.0, 0.0])], &mut x).unwrap()";
    block: "step.particle_block_from_columns(0, &mut [[0.0; 2]; 2]).unwrap()";
    refused: "direct.solve(&b, &mut x)";
    error: "direct.solve(&b[1..], &mut x).unwrap_err()";
    solved: "Stepped::Direct.solved()";
}
