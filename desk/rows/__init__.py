"""The rows of `desk/test`, by topic, and what they share."""
