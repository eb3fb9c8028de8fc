use garde::Validate as Checked; //~ the derive `Validate` under the name `Checked`: import it under its own
