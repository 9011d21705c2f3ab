"""Tests of the language. `scripts/gel --check` runs them on a sample, `scripts/gel --check --all` on all."""
