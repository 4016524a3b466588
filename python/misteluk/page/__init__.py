"""The page of a neighborhood."""
