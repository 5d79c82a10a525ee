"""`fzcheck-mzn`: plans that `minizinc` printed."""
