"""The repository's own checks: checks/run runs them, docs/CONTRIBUTING.md says how one is written."""
