"""Runs the solver beside this file, which is compiled once, since it is a module."""
import sys

import solver

solver.main(sys.argv[1:])
