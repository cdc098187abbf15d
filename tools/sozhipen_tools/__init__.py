"""The tools around the engine: a second evaluator, what tells of rule files and runs, measures, and checks of the
repository."""
