"""The parts of truth.py, and the sources that it compiles."""
