"""Wrong programs, tried on the prover: edits of a crate that its promises must refuse, and mutants made by rule."""
