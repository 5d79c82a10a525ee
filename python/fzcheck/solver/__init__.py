"""`fzcheck-solver` and `fzcheck-configure`: a solver that is checked while it runs."""
