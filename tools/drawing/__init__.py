"""A picture of a map from its log: the log is read, folded and drawn, and a transcript is held against it."""
