"""Images, symbols and source lines, and the measurement of a region."""
