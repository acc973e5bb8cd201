"""The worked cases of rows/, as they stand in their files."""
