"""Tests of the package uuspool_calls: its functions, called directly. `tests/calls-units` runs them, and
`tests/calls` runs the commands."""
