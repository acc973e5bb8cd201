"""Tests of the tools; `tools/dev/test` runs them."""
