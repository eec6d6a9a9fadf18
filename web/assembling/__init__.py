"""Puts the page together: one HTML file, with the module, the examples and the reasons inside."""
