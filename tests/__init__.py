"""Our own checks of what is built; `tests/run` starts them."""
