"""`fzcheck-fuzz` and `fzcheck-shrink`: faults of solvers, found and made small."""
