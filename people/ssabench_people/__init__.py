"""A program for people over the proved one: real objects and real kinds, taken to a bench and back."""
