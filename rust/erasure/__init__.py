"""Rust of Rattle's sources: contracts and proofs go, and a few forms change their spelling."""


class Unknown(Exception):
    """A form that the script does not know."""
