"""Pictures of runs: what `draw` and `view` share."""
