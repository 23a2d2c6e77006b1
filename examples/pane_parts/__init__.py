"""The parts of the search pane: a text, the same text in the program, keys, and lines on a screen."""
