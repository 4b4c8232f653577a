// Stands in for the original's own tests of its analysis. What can't be seen: all of them.
