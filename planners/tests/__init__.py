"""Tests of the planners' scripts; `run` runs them all."""
