"""The version of the package. A wheel whose library is proved has it without `+unproved` (build_wheel.py)."""
__version__ = "0.1.0+unproved"
