"""The parts of hart-bench, which tries devices and masters."""
