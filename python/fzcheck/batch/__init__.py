"""`fzcheck-batch`: a season of many models and solvers."""
